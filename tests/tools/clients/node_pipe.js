// Pipes a page to standard output. The request's errors are heard, the answer's aren't.
require("http")
  .get(process.argv[2], (answer) => answer.pipe(process.stdout))
  .on("error", () => process.exit(1));
