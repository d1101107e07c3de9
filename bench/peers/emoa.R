# emoa's nondominated_points on level tables. A question is a line `FILE CALLS`, the answer `BEST NANOSECONDS`, by the wall clock: R has
# no finer one for its own time.
suppressMessages(library(emoa))

questions <- file("stdin", "r")
last <- ""
while (length(line <- readLines(questions, 1)) > 0) {
  words <- strsplit(line, " ")[[1]]
  if (words[1] != last) {
    # A column for each row of the table, as emoa has it.
    points <- t(as.matrix(read.table(words[1])))
    storage.mode(points) <- "double"
    last <- words[1]
  }
  calls <- as.integer(words[2])
  begin <- Sys.time()
  for (i in seq_len(calls)) best <- nondominated_points(points)
  time <- as.numeric(Sys.time() - begin, units = "secs")
  cat(sprintf("%d %.0f\n", NCOL(best), time * 1e9))
  flush(stdout())
}
