"use strict";
// Where in a text each instruction stands.

// A line without its comment, which begins with a semicolon at the start or after a space.
const bare = (line) => line.replace(/(^|[ \t]);.*$/, "$1").trim();

// The methods of a text in order, each the numbers (from 1) of the lines on which its instructions stand.
function methodsOfText(text) {
  const methods = [];
  let method = null, inSwitch = false;
  text.split("\n").forEach((whole, index) => {
    let line = bare(whole);
    if (/^\.method\b/.test(line)) {
      method = [];
      methods.push(method);
    } else if (/^\.end[ \t]+method\b/.test(line)) method = null;
    else if (method) {
      if (inSwitch) {
        if (/^default\b/.test(line)) inSwitch = false;
        return;
      }
      line = line.replace(/^[^\s:.]+:\s*/, "");
      if (line === "" || line.startsWith(".")) return;
      method.push(index + 1);
      inSwitch = /^(tableswitch|lookupswitch)\b/.test(line);
    }
  });
  return methods;
}

// The lines of a text's class, by method and pc; methods whose lines can't be told are left out.
function placesOf(text, klass) {
  const places = new Map();
  const methods = methodsOfText(text);
  if (methods.length !== klass.methods.length) return places;
  klass.methods.forEach((method, at) => {
    if (methods[at].length !== method.pcs.length) return;
    const lines = new Map();
    method.pcs.forEach((pc, nth) => lines.set(pc, methods[at][nth]));
    places.set(method.name, lines);
  });
  return places;
}
