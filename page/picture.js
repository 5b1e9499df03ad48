"use strict";
// The picture of a run, as proved code draws it, a button for each of its columns, and files of it.

function made(kind, properties, ...inner) {
  const node = Object.assign(document.createElement(kind), properties);
  node.append(...inner);
  return node;
}

function columnButton(part, number, isNow, choose) {
  const node = made("button", { title: part.head, onclick: () => choose(number) }, String(number));
  node.ariaCurrent = isNow ? "step" : null;
  return node;
}

function svgAddress(svg) {
  return `data:image/svg+xml,${encodeURIComponent(svg)}`;
}

// The picture's own style applies only inside it, since it is an image. The run is next to it as text.
function drawing(svg, words) {
  const image = made("img", { src: svgAddress(svg), alt: words });
  image.setAttribute("aria-details", "course");
  return image;
}

// The buttons of all parts and the picture; `choose` is called with the number of the part that is clicked.
function picture(svg, parts, at, choose) {
  const buttons = parts.map((part, number) => columnButton(part, number, number === at, choose));
  return [made("div", { className: "columns" }, ...buttons), drawing(svg, parts.at(-1).lines.join("\n"))];
}

// ---- files

function save(name, address) {
  made("a", { href: address, download: name }).click();
}

// The picture as pixels, two for each of its own.
async function pngOf(svg) {
  const image = new Image();
  image.src = svgAddress(svg);
  await image.decode();
  const canvas = made("canvas", { width: 2 * image.width, height: 2 * image.height });
  canvas.getContext("2d").drawImage(image, 0, 0, canvas.width, canvas.height);
  return new Promise((done, fail) => {
    canvas.toBlob((blob) => (blob ? done(blob) : fail(new Error("the picture is too large for a PNG file"))));
  });
}
