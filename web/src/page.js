// The page's only script. Its text also runs as the worker, which has no document.
void (typeof document === "undefined" ? import("./worker.js") : import("./main.js"));
