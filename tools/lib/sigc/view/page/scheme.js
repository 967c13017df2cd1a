"use strict";
// The colours of the page: those that its address asks for, or else those of the system.
function takeScheme(asked) {
  const isDark = asked ? asked === "dark" : matchMedia("(prefers-color-scheme: dark)").matches;
  document.documentElement.dataset.scheme = isDark ? "dark" : "light";
}
takeScheme(new URLSearchParams(location.hash.slice(1)).get("scheme"));
