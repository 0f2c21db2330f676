// Prints a page by Node's fetch, with a time limit and a check of the status.
fetch(process.argv[2], { signal: AbortSignal.timeout(1000) })
  .then((answer) => (answer.ok ? answer.text() : Promise.reject(answer.status)))
  .then((text) => process.stdout.write(text));
