// The only script of the page that a server serves, as page.js is of the page without one.
void (typeof document === "undefined" ? import("./worker.js") : import("./online.js"));
