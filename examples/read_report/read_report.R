# Reads a report of markov_desk from standard input: its lines as a named list, and the exact p-value.
lines <- readLines("stdin")
lines <- lines[!grepl("^(stored|unchanged) ", lines)]
report <- as.list(setNames(sub("^[^ ]+ ", "", lines), sub(" .*$", "", lines)))
parts <- as.numeric(strsplit(report$fraction, "/")[[1]])
cat(sprintf("%s: %s tables, p = %s = %.6f\n", report$analysis, report$tables, report$fraction,
            parts[1] / parts[2]))
