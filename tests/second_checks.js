// Runs the second checker on many certificates in one process: reads a list of lists of words, and writes a text and a status for each.
"use strict";

const files = require("fs");
const { judge_files } = require("../tools/second_check.js");

const lists = JSON.parse(files.readFileSync(process.argv[2]));
process.stdout.write(JSON.stringify(lists.map((words) => judge_files(files, words))));
