// Makes elements, of the report and of the live page of examples/http3-server. A part is an element or a text.
'use strict';

function element(tag, className = '', ...parts) {
  const made = document.createElement(tag);
  if (className) made.className = className;
  made.append(...parts);
  return made;
}
