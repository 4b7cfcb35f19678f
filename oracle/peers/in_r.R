# Each lot by vegan (adonis2, betadisper about centroids) and ape (pcoa): DIR/r, in the form of DIR/ours.
suppressMessages({ library(vegan); library(ape) })
to <- commandArgs(trailingOnly = TRUE)[1]
options(warn = -1)

# Processor seconds of a call: as many calls as fill half a second, one at least.
seconds <- function(call) {
  used <- function() sum(proc.time()[1:2])
  from <- used()
  calls <- 0
  while (calls < 1 || used() - from < 0.5) { call(); calls <- calls + 1 }
  (used() - from) / calls
}

lines <- character()
tell <- function(lot, what, time, values)
  lines <<- c(lines, paste(c(lot, what, time, sprintf("%.17g", values)), collapse = " "))

for (lot in basename(list.dirs(to, recursive = FALSE))) {
  d <- as.dist(as.matrix(read.table(file.path(to, lot, "distances"))))
  labels <- factor(scan(file.path(to, lot, "labels"), quiet = TRUE))
  location <- function() adonis2(d ~ labels, permutations = 999)
  dispersion <- function() permutest(betadisper(d, labels, type = "centroid"), permutations = 999)
  values <- function() pcoa(d)
  tell(lot, "location", seconds(location), location()$F[1])
  tell(lot, "dispersion", seconds(dispersion), dispersion()$tab$F[1])
  tell(lot, "values", seconds(values), values()$values$Eigenvalues[1:8])
}
writeLines(lines, file.path(to, "r"))
