# Coalesced queries with R's data.table, by all its threads:
#
#     Rscript bench/questions_data_table.R EMP SAL QUESTION
#
# QUESTION is join, difference, counts, sums, or the columns to select from EMP, separated by commas.
#
# Each row changes the copies and the total of its group at its start and at its end. The script takes running sums of
# these changes. For counts and sums, a period ends when the total changes. For other queries, the copies are arranged in
# layers, whose starts and ends alternate.

suppressPackageStartupMessages(library(data.table))
setDTthreads(0)
words <- commandArgs(trailingOnly = TRUE)
question <- words[3]
forever <- 1e12

# A file's rows, with start and stop as numbers. fread leaves doubled quotes in quoted fields.
load_rows <- function(path, names, kinds) {
  rows <- fread(path, skip = 1, header = FALSE, col.names = c(names, "start", "stop"), encoding = "UTF-8",
                colClasses = c(kinds, "numeric", "numeric"), na.strings = "forever")
  rows[is.na(stop), stop := forever]
  for (name in names[kinds == "character"]) {
    if (any(grepl('""', rows[[name]], fixed = TRUE))) set(rows, j = name, value = gsub('""', '"', rows[[name]], fixed = TRUE))
  }
  rows
}

load_emp <- function() load_rows(words[1], c("emp", "name", "dept"), c("integer", "character", "character"))
load_sal <- function() load_rows(words[2], c("emp", "amount"), c("integer", "numeric"))

# The pairs of rows with one key that are valid together.
join_rows <- function() {
  rows <- load_emp()[load_sal(), on = "emp", allow.cartesian = TRUE, nomatch = NULL]
  rows <- rows[start < i.stop & i.start < stop]
  rows[, .(emp, name, dept, amount, start = pmax(start, i.start), stop = pmin(stop, i.stop))]
}

# The sums of the changes of each group at each instant, ordered by group and instant.
changes_of <- function(rows, by) {
  starts <- rows[, c(by, "start", "copies", "total"), with = FALSE]
  stops <- rows[, c(by, "stop", "copies", "total"), with = FALSE]
  setnames(starts, "start", "at")
  setnames(stops, "stop", "at")
  set(stops, j = "copies", value = -stops$copies)
  set(stops, j = "total", value = -stops$total)
  rbind(starts, stops)[, .(copies = sum(copies), total = sum(total)), keyby = c(by, "at")]
}

# The rows of the layers. A change of n copies starts or ends a row in n layers. In a layer starts and ends alternate.
layers <- function(changes, by) {
  changes <- changes[copies != 0]
  changes[, below := cumsum(copies)]
  changes[, below := pmin(below, below - copies)]
  each <- changes[rep.int(seq_len(.N), abs(copies)), c(by, "at", "below"), with = FALSE]
  each[, layer := below + sequence(abs(changes$copies))]
  setorderv(each, c(by, "layer", "at"))
  begins <- seq(1, by = 2, length.out = nrow(each) %/% 2)
  answer <- each[begins, c(by, "at"), with = FALSE]
  answer[, end := each$at[begins + 1]]
  setorderv(answer, c(by, "at", "end"))
  answer
}

totals <- function(changes) {
  changes[, c("copies", "total") := .(cumsum(copies), cumsum(total)), by = dept]
  changes[, same := shift(copies > 0, fill = FALSE) == (copies > 0) & shift(total, fill = 0) == total, by = dept]
  changes <- changes[same == FALSE]
  changes[, end := shift(at, type = "lead"), by = dept]
  answer <- changes[copies > 0, .(dept, total, at, end)]
  setorder(answer, dept, total, at)
  answer
}

if (question == "join") {
  by <- c("emp", "name", "dept", "amount")
  answer <- layers(changes_of(join_rows()[, c("copies", "total") := 1], by), by)
} else if (question == "difference") {
  left <- load_emp()[, .(emp, start, stop, copies = 1, total = 0)]
  right <- load_sal()[, .(emp, start, stop, copies = -1, total = 0)]
  changes <- changes_of(rbind(left, right), "emp")
  changes[, level := pmax(cumsum(copies), 0)]
  changes[, copies := level - shift(level, fill = 0)]
  answer <- layers(changes, "emp")
} else if (question == "counts") {
  answer <- totals(changes_of(load_emp()[, c("copies", "total") := 1], "dept"))
  setnames(answer, "total", "count")
} else if (question == "sums") {
  answer <- totals(changes_of(join_rows()[, c("copies", "total") := .(1, amount)], "dept"))
  setnames(answer, "total", "sum")
} else {
  by <- strsplit(question, ",", fixed = TRUE)[[1]]
  answer <- layers(changes_of(load_emp()[, c("copies", "total") := 1], by), by)
}

digits <- function(numbers) sprintf("%.0f", numbers)
answer[, end := fifelse(end == forever, "forever", digits(end))]
setnames(answer, c("at", "end"), c("from", "to"))
options(scipen = 20)
fwrite(answer, "", quote = "auto", qmethod = "double", eol = "\n")
