"use strict";

// ---- what is shown ----

const mesh = JSON.parse(document.getElementById("data").textContent);
mesh.points = Float64Array.from(mesh.points);
mesh.corners = Uint32Array.from(mesh.corners);
const byId = (id) => document.getElementById(id);
const number = new Intl.NumberFormat("en-US");
const triangleCount = mesh.corners.length / 3;
const names = ["x", "y", "z"];

// One colour for a surface, in turn: on light and on dark ground each has a contrast of 3 and more.
const palettes = {
  light: ["#0072b2", "#c04f00", "#00805c", "#b0558a", "#8a6d00", "#5b4fc7", "#4d7300", "#b3261e"],
  dark: ["#56b4e9", "#ff8c42", "#2fc598", "#e79ac4", "#e6c229", "#a9a1ff", "#a4cf4a", "#ff7a70"],
};

const state = {
  round: 30, up: 20, zoom: 1, shift: [0, 0],
  visible: mesh.surfaces.map(() => true),
  axis: 1, place: 0, chosen: -1, printing: false,
};

function theme() {
  if (state.printing) return "light";
  const asked = byId("theme").value;
  if (asked) return asked;
  return matchMedia("(prefers-color-scheme: dark)").matches ? "dark" : "light";
}

function applyTheme() {
  document.documentElement.dataset.theme = theme();
  listSurfaces();
  drawFilm();
  renewColours();
  draw();
}

const style = (name) => getComputedStyle(document.documentElement).getPropertyValue(name).trim();
const colourOf = (surface) => palettes[theme()][surface % palettes.light.length];
const channels = (colour) => [1, 3, 5].map((at) => parseInt(colour.slice(at, at + 2), 16) / 255);
const point = (at) => [mesh.points[3 * at], mesh.points[3 * at + 1], mesh.points[3 * at + 2]];
const corners = (triangle) => [0, 1, 2].map((at) => mesh.corners[3 * triangle + at]);
const isShown = (triangle) => state.visible[mesh.surface[triangle]];

// ---- the view: a parallel projection ----

const box = mesh.box;
const middle = [0, 1, 2].map((axis) => (box.low[axis] + box.high[axis]) / 2);
const reach = Math.max(Math.hypot(...[0, 1, 2].map((axis) => box.high[axis] - box.low[axis])) / 2, Number.MIN_VALUE);
// places for the graphics card are taken from the middle and by the reach: its numbers are short
const near = (place) => place.map((of, axis) => (of - middle[axis]) / reach);

// The directions to the right, upwards and towards the eye.
function axes() {
  const round = state.round * Math.PI / 180, up = state.up * Math.PI / 180;
  const [cr, sr, cu, su] = [Math.cos(round), Math.sin(round), Math.cos(up), Math.sin(up)];
  return [[cr, sr, 0], [-sr * su, cr * su, cu], [sr * cu, -cr * cu, su]];
}

const dot = (a, b) => a[0] * b[0] + a[1] * b[1] + a[2] * b[2];
const less = (a, b) => [a[0] - b[0], a[1] - b[1], a[2] - b[2]];
const cross = (a, b) => [a[1] * b[2] - a[2] * b[1], a[2] * b[0] - a[0] * b[2], a[0] * b[1] - a[1] * b[0]];

// How much of the canvas's half width and half height one reach takes.
function scale() {
  const canvas = byId("view");
  const [width, height] = [canvas.clientWidth || 1, canvas.clientHeight || 1];
  const least = Math.min(width, height) * 0.98 * state.zoom;
  return [least / width, least / height];
}

// Where a place is on the canvas, from -1 to 1 each way.
function projected(place) {
  const [right, upwards] = axes(), [sx, sy] = scale(), at = near(place);
  return [dot(right, at) * sx + state.shift[0], dot(upwards, at) * sy + state.shift[1]];
}

// ---- drawing in space ----

// With and without what the section cuts off: a card that may leave out a point cannot tell early that it is hidden.
const surfaceShader = (cut) => [`#version 300 es
uniform vec3 right, upwards, towards, lamp; uniform vec2 scale, shift; uniform vec4 plane;
in vec3 place, colour, normal; flat out vec3 tint; out float beyond;
void main() {
  tint = mix(colour * 0.7, mix(colour, vec3(1.0), 0.25), abs(dot(normal, lamp)));
  beyond = plane.w - dot(plane.xyz, place);
  gl_Position = vec4(vec2(dot(right, place), dot(upwards, place)) * scale + shift, -dot(towards, place) * 0.5, 1.0);
}`, `#version 300 es
precision mediump float;
flat in vec3 tint; in float beyond; out vec4 ink;
void main() { ${cut ? "if (beyond > 0.0) discard;" : ""} ink = vec4(tint, 1.0); }`];

// A line is two triangles, so many pixels wide; it lies a little before the surfaces.
const lineShader = [`#version 300 es
uniform vec3 right, upwards, towards; uniform vec2 scale, shift, pixel; uniform float width;
uniform vec4 plane; uniform bool cut;
in vec3 start, end; out float beyond;
vec3 seen(vec3 place) { return vec3(vec2(dot(right, place), dot(upwards, place)) * scale + shift, -dot(towards, place) * 0.5); }
void main() {
  int k = gl_VertexID % 6, corner = k < 3 ? k : k == 3 ? 2 : k == 4 ? 1 : 3;
  vec3 a = seen(start), b = seen(end), p = corner < 2 ? a : b;
  vec2 way = (b.xy - a.xy) / pixel; float far = length(way);
  vec2 aside = far > 0.0 ? vec2(-way.y, way.x) / far : vec2(1.0, 0.0);
  beyond = cut ? plane.w - dot(plane.xyz, corner < 2 ? start : end) : -1.0;
  gl_Position = vec4(p.xy + aside * pixel * width * (float(corner % 2) - 0.5), p.z - 0.0008, 1.0);
}`, `#version 300 es
precision mediump float;
uniform vec4 tint; in float beyond; out vec4 ink;
void main() { if (beyond > 0.0) discard; ink = tint; }`];

let gl = null, card = null;

function program([vertex, fragment], attributes) {
  const made = gl.createProgram();
  [[gl.VERTEX_SHADER, vertex], [gl.FRAGMENT_SHADER, fragment]].forEach(([kind, source]) => {
    const shader = gl.createShader(kind);
    gl.shaderSource(shader, source);
    gl.compileShader(shader);
    if (!gl.getShaderParameter(shader, gl.COMPILE_STATUS)) throw new Error(gl.getShaderInfoLog(shader));
    gl.attachShader(made, shader);
  });
  attributes.forEach((name, at) => gl.bindAttribLocation(made, at, name));
  gl.linkProgram(made);
  if (!gl.getProgramParameter(made, gl.LINK_STATUS)) throw new Error(gl.getProgramInfoLog(made));
  const uniforms = {};
  for (let at = 0; at < gl.getProgramParameter(made, gl.ACTIVE_UNIFORMS); at++) {
    const { name } = gl.getActiveUniform(made, at);
    uniforms[name] = gl.getUniformLocation(made, name);
  }
  return { made, uniforms };
}

function buffer(values) {
  const made = gl.createBuffer();
  gl.bindBuffer(gl.ARRAY_BUFFER, made);
  gl.bufferData(gl.ARRAY_BUFFER, values, gl.STATIC_DRAW);
  return made;
}

// Segments, six numbers each, for the program of lines.
function lines(values) {
  const array = gl.createVertexArray();
  gl.bindVertexArray(array);
  const made = buffer(sixfold(values));
  [0, 1].forEach((at) => {
    gl.enableVertexAttribArray(at);
    gl.vertexAttribPointer(at, 3, gl.FLOAT, false, 24, 12 * at);
  });
  return { array, made, count: values.length };
}

// The numbers of each segment for each of its six corners.
function sixfold(values) {
  const all = new Float32Array(6 * values.length);
  for (let at = 0; at < all.length; at++) all[at] = values[6 * Math.floor(at / 36) + at % 6];
  return all;
}

function refill(of, values) {
  gl.bindBuffer(gl.ARRAY_BUFFER, of.made);
  gl.bufferData(gl.ARRAY_BUFFER, sixfold(values), gl.DYNAMIC_DRAW);
  of.count = values.length;
  return of;
}

// The triangles surface by surface, so that those that are on are few stretches.
const order = Array.from({ length: triangleCount }, (_, at) => at).sort((a, b) => mesh.surface[a] - mesh.surface[b] || a - b);
const stretches = mesh.surfaces.map(() => [0, 0]);
order.forEach((triangle, at) => {
  const stretch = stretches[mesh.surface[triangle]];
  if (stretch[1] === 0) stretch[0] = at;
  stretch[1] += 1;
});

function prepareTriangles() {
  const places = new Float32Array(9 * triangleCount), normals = new Int8Array(9 * triangleCount);
  order.forEach((triangle, row) => {
    const own = corners(triangle).map((corner) => near(point(corner)));
    const across = cross(less(own[1], own[0]), less(own[2], own[0])), size = Math.hypot(...across) || 1;
    own.forEach((place, at) => {
      places.set(place, 9 * row + 3 * at);
      normals.set(across.map((of) => Math.round(127 * of / size)), 9 * row + 3 * at);
    });
  });
  const array = gl.createVertexArray();
  gl.bindVertexArray(array);
  [[0, places, gl.FLOAT], [2, normals, gl.BYTE]].forEach(([at, values, kind]) => {
    buffer(values);
    gl.enableVertexAttribArray(at);
    gl.vertexAttribPointer(at, 3, kind, kind === gl.BYTE, 0, 0);
  });
  return array;
}

const ofPairs = (pairs, place) => pairs.flatMap((at) => near(place(at)));

function prepare() {
  card = {
    whole: program(surfaceShader(false), ["place", "colour", "normal"]),
    cut: program(surfaceShader(true), ["place", "colour", "normal"]),
    line: program(lineShader, ["start", "end"]),
    triangles: prepareTriangles(),
    grid: lines(ofPairs(mesh.grid.outer, (at) => mesh.grid.nodes.slice(3 * at, 3 * at + 3))),
    creases: lines(ofPairs(mesh.grid.creases, (at) => mesh.grid.nodes.slice(3 * at, 3 * at + 3))),
    open: lines([]),
    sides: lines([]),
    once: lines([]),
    shown: "",
  };
  renewColours();
}

function renewColours() {
  if (!card) return;
  const tints = mesh.surfaces.map((_, surface) => channels(colourOf(surface)).map((of) => 255 * of));
  const values = new Uint8Array(9 * triangleCount);
  order.forEach((triangle, row) => {
    const tint = tints[mesh.surface[triangle]];
    for (let k = 0; k < 9; k++) values[9 * row + k] = tint[k % 3];
  });
  gl.bindVertexArray(card.triangles);
  if (card.colours) gl.deleteBuffer(card.colours);
  card.colours = buffer(values);
  gl.enableVertexAttribArray(1);
  gl.vertexAttribPointer(1, 3, gl.UNSIGNED_BYTE, true, 0, 0);
}

// The section's plane in the card's numbers, and its rim. What is on the eye's side of it is cut off.
function plane() {
  const towards = axes()[2][state.axis] < 0 ? -1 : 1;
  const way = [0, 0, 0];
  way[state.axis] = -towards;
  return [...way, -towards * (state.place - middle[state.axis]) / reach];
}

function rim() {
  const [a, b] = [0, 1, 2].filter((axis) => axis !== state.axis);
  const corner = (u, v) => {
    const place = [0, 0, 0];
    place[state.axis] = state.place;
    place[a] = u ? box.high[a] : box.low[a];
    place[b] = v ? box.high[b] : box.low[b];
    return near(place);
  };
  const four = [corner(0, 0), corner(1, 0), corner(1, 1), corner(0, 1)];
  return four.flatMap((from, at) => [...from, ...four[(at + 1) % 4]]);
}

function use({ made, uniforms }, cut) {
  const [right, upwards, towards] = axes();
  gl.useProgram(made);
  gl.uniform3fv(uniforms.right, right);
  gl.uniform3fv(uniforms.upwards, upwards);
  gl.uniform3fv(uniforms.towards, towards);
  gl.uniform2fv(uniforms.scale, scale());
  gl.uniform2fv(uniforms.shift, state.shift);
  const lamp = [0, 1, 2].map((axis) => (-0.4 * right[axis] + 0.6 * upwards[axis] + 0.9 * towards[axis]) / Math.hypot(0.4, 0.6, 0.9));
  if (uniforms.lamp) gl.uniform3fv(uniforms.lamp, lamp);
  if (uniforms.plane) gl.uniform4fv(uniforms.plane, plane());
  if (uniforms.cut) gl.uniform1i(uniforms.cut, cut ? 1 : 0);
}

function drawLines({ array, count }, colour, width, opacity = 1) {
  const { uniforms } = card.line, canvas = byId("view");
  gl.uniform2f(uniforms.pixel, 2 / canvas.width, 2 / canvas.height);
  gl.uniform1f(uniforms.width, width * (devicePixelRatio || 1));
  gl.uniform4f(uniforms.tint, ...channels(colour), opacity);
  gl.bindVertexArray(array);
  if (count > 0) gl.drawArrays(gl.TRIANGLES, 0, count);
}

// Surfaces that are nearer come first, so that those behind them cost little.
function drawSurfaces() {
  const cut = byId("cut").checked, towards = axes()[2];
  use(cut ? card.cut : card.whole, cut);
  gl.bindVertexArray(card.triangles);
  const on = [...mesh.surfaces.keys()].filter((surface) => state.visible[surface]);
  const depth = on.map((surface) => [dot(towards, mesh.surfaces[surface].middle), surface]);
  depth.sort((a, b) => b[0] - a[0]).forEach(([, surface]) => {
    const [first, count] = stretches[surface];
    gl.drawArrays(gl.TRIANGLES, 3 * first, 3 * count);
  });
}

// The three sides of a triangle as segments.
function rimOf(triangle) {
  const own = corners(triangle).map((corner) => near(point(corner)));
  return [0, 1, 2].flatMap((side) => [...own[side], ...own[(side + 1) % 3]]);
}

// Fills in the open sides of the surfaces that are on, and the sides of all their triangles where asked for.
function renewLines() {
  const wanted = `${byId("show-sides").checked} ${state.visible.join()}`;
  if (card.shown === wanted) return;
  card.shown = wanted;
  const open = mesh.openSurface.flatMap((surface, at) => state.visible[surface] ? [mesh.open[2 * at], mesh.open[2 * at + 1]] : []);
  refill(card.open, ofPairs(open, point));
  refill(card.sides, byId("show-sides").checked ? order.filter(isShown).flatMap(rimOf) : []);
}

let asked = false;
function draw() {
  if (!gl || asked) return;
  asked = true;
  requestAnimationFrame(() => { asked = false; drawNow(); });
}

function drawNow() {
  if (!gl || gl.isContextLost()) return;
  const canvas = byId("view"), ratio = devicePixelRatio || 1;
  const [width, height] = [canvas.clientWidth, canvas.clientHeight].map((of) => Math.max(1, Math.round(of * ratio)));
  if (canvas.width !== width || canvas.height !== height) [canvas.width, canvas.height] = [width, height];
  gl.viewport(0, 0, width, height);
  gl.clearColor(...channels(style("--paper")), 1);
  gl.clear(gl.COLOR_BUFFER_BIT | gl.DEPTH_BUFFER_BIT);
  drawSurfaces();
  renewLines();
  use(card.line, byId("cut").checked);
  drawLines(card.sides, style("--paper"), 1, 0.55);
  if (byId("show-open").checked) drawLines(card.open, style("--open"), 2);
  use(card.line, false);
  if (byId("show-grid").checked) {
    drawLines(card.grid, style("--grid"), 1, 0.3);
    drawLines(card.creases, style("--grid"), 1.5);
  }
  drawLines(refill(card.once, rim()), style("--plane"), 1.5);
  if (state.chosen < 0) return;
  // also where it is hidden
  gl.disable(gl.DEPTH_TEST);
  drawLines(refill(card.once, rimOf(state.chosen)), style("--chosen"), 4);
  gl.enable(gl.DEPTH_TEST);
}

function startDrawing() {
  const canvas = byId("view");
  try {
    // rims of a large mesh are not smoothed: that costs as much again
    gl = canvas.getContext("webgl2", { antialias: triangleCount < 20000, preserveDrawingBuffer: true });
    if (!gl) throw new Error("no WebGL 2");
    gl.enable(gl.DEPTH_TEST);
    gl.enable(gl.BLEND);
    gl.blendFuncSeparate(gl.SRC_ALPHA, gl.ONE_MINUS_SRC_ALPHA, gl.ONE, gl.ONE_MINUS_SRC_ALPHA);
    prepare();
  } catch (error) {
    gl = null;
    card = null;
    byId("no-webgl").hidden = false;
    byId("frame").hidden = true;
    byId("keys").hidden = true;
    return;
  }
  canvas.addEventListener("webglcontextlost", (event) => event.preventDefault());
  canvas.addEventListener("webglcontextrestored", () => { prepare(); draw(); });
  new ResizeObserver(draw).observe(canvas);
}

// ---- which triangle is seen at a place of the canvas ----

function pick(x, y) {
  const [right, upwards, towards] = axes(), [sx, sy] = scale();
  const u = (x - state.shift[0]) / sx, v = (y - state.shift[1]) / sy;
  const seen = new Float64Array(mesh.points.length);
  for (let at = 0; at < seen.length; at += 3) {
    const [x, y, z] = [0, 1, 2].map((axis) => (mesh.points[at + axis] - middle[axis]) / reach);
    seen[at] = right[0] * x + right[1] * y + right[2] * z;
    seen[at + 1] = upwards[0] * x + upwards[1] * y + upwards[2] * z;
    seen[at + 2] = towards[0] * x + towards[1] * y + towards[2] * z;
  }
  const [a, b, c, w] = plane(), cut = byId("cut").checked;
  const isCut = (depth) => {
    const place = [0, 1, 2].map((axis) => right[axis] * u + upwards[axis] * v + towards[axis] * depth);
    return cut && w - dot([a, b, c], place) > 0;
  };
  let best = -1, highest = -Infinity;
  for (let triangle = 0; triangle < triangleCount; triangle++) {
    if (!isShown(triangle)) continue;
    const depth = depthAt(seen, triangle, u, v);
    if (depth > highest && !isCut(depth)) [best, highest] = [triangle, depth];
  }
  return best;
}

// How near to the eye a triangle is at a place, or minus infinity where it is not.
function depthAt(seen, triangle, u, v) {
  const [p, q, r] = [3 * mesh.corners[3 * triangle], 3 * mesh.corners[3 * triangle + 1], 3 * mesh.corners[3 * triangle + 2]];
  const turn = (i, j) => (seen[i] - u) * (seen[j + 1] - v) - (seen[i + 1] - v) * (seen[j] - u);
  const [a, b, c] = [turn(q, r), turn(r, p), turn(p, q)], all = a + b + c;
  if (all === 0 || !((a >= 0 && b >= 0 && c >= 0) || (a <= 0 && b <= 0 && c <= 0))) return -Infinity;
  return (a * seen[p + 2] + b * seen[q + 2] + c * seen[r + 2]) / all;
}

// ---- what is told of a triangle ----

function cornerInWords(at, cell) {
  if (at < mesh.crossings) return `crossing ${at}`;
  if (at < mesh.crossings + mesh.inner) {
    const [, first] = mesh.innerStarts.filter(([own, from]) => own === cell && from <= at).pop();
    return `inner crossing ${65536 + at - first} of cell ${cell}`;
  }
  return "middle of its loop";
}

function choose(triangle) {
  state.chosen = triangle;
  byId("number").value = triangle >= 0 ? triangle : "";
  byId("triangle").replaceChildren(triangle >= 0 ? tableOf(triangle) : words("Click a triangle, or give its number."));
  draw();
}

function words(text) {
  const paragraph = document.createElement("p");
  paragraph.className = "quiet";
  paragraph.textContent = text;
  return paragraph;
}

function tableOf(triangle) {
  const cell = mesh.cell[triangle], part = mesh.subCell[triangle];
  const rows = [
    ["triangle", triangle], ["surface", mesh.surface[triangle]], ["cell", cell],
    ["sub-cell", part === 0 ? "none" : part], ["p0", mesh.p0[triangle]], ["loop", mesh.loops[mesh.loop[triangle]]],
    ...corners(triangle).map((corner, at) => [`corner ${at}`, `${cornerInWords(corner, cell)}, at ${point(corner).join(", ")}`]),
  ];
  const table = document.createElement("table");
  rows.forEach(([name, told]) => {
    const row = table.insertRow(), head = document.createElement("th");
    head.scope = "row";
    head.textContent = name;
    row.append(head);
    row.insertCell().textContent = told;
  });
  return table;
}

// ---- surfaces ----

function surfaceInWords(surface) {
  const of = mesh.surfaces[surface];
  const shape = of.closed ? `closed, volume ${short(of.volume)}` : `open, ${number.format(of.open)} open sides`;
  return `${surface}: ${number.format(of.triangles)} triangles, ${shape}, area ${short(of.area)}`;
}

const short = (of) => of === null ? "unknown" : String(Number(of.toPrecision(6)));

function listSurfaces() {
  const list = byId("surfaces");
  list.replaceChildren(...mesh.surfaces.map((_, surface) => {
    const item = document.createElement("li"), label = document.createElement("label");
    const check = document.createElement("input"), patch = document.createElement("span"), name = document.createElement("span");
    check.type = "checkbox";
    check.checked = state.visible[surface];
    check.dataset.surface = surface;
    patch.className = "patch";
    patch.style.background = colourOf(surface);
    name.textContent = surfaceInWords(surface);
    label.append(check, patch, name);
    item.append(label);
    return item;
  }));
}

function show(surfaces, on) {
  surfaces.forEach((surface) => { state.visible[surface] = on; });
  byId("surfaces").querySelectorAll("input").forEach((check) => { check.checked = state.visible[check.dataset.surface]; });
  drawFilm();
  draw();
}

// ---- the section ----

// A corner on the plane counts as beyond it: so each triangle has two cut sides or none, and a curve comes once.
function section() {
  const curves = mesh.surfaces.map(() => []), [a, b] = filmAxes(), { points, corners, surface } = mesh;
  const beyond = Uint8Array.from({ length: points.length / 3 }, (_, at) => points[3 * at + state.axis] >= state.place);
  for (let at = 0; at < corners.length; at += 3) {
    const p = corners[at], q = corners[at + 1], r = corners[at + 2];
    if ((beyond[p] === beyond[q] && beyond[q] === beyond[r]) || !state.visible[surface[at / 3]]) continue;
    const ends = [];
    if (beyond[p] !== beyond[q]) ends.push(cutSide(3 * p, 3 * q, a, b));
    if (beyond[q] !== beyond[r]) ends.push(cutSide(3 * q, 3 * r, a, b));
    if (beyond[r] !== beyond[p]) ends.push(cutSide(3 * r, 3 * p, a, b));
    curves[surface[at / 3]].push(ends);
  }
  return curves;
}

function cutSide(p, q, a, b) {
  const { points } = mesh, low = points[p + state.axis], share = (state.place - low) / (points[q + state.axis] - low);
  return [points[p + a] + share * (points[q + a] - points[p + a]), points[p + b] + share * (points[q + b] - points[p + b])];
}

// The two axes on the film, to the right and upwards.
const filmAxes = () => [[1, 2], [0, 2], [0, 1]][state.axis];

// Rules a whole number of 1, 2 or 5 times a power of ten apart, at most so many along the film.
function ruling(width) {
  const power = 10 ** Math.floor(Math.log10(width / 120));
  return [1, 2, 5, 10].map((of) => of * power).find((of) => width / of <= 120);
}

function svg(name, attributes, text) {
  const made = document.createElementNS("http://www.w3.org/2000/svg", name);
  Object.entries(attributes).forEach(([key, value]) => made.setAttribute(key, value));
  if (text !== undefined) made.textContent = text;
  return made;
}

function drawFilm() {
  const film = byId("film"), [a, b] = filmAxes();
  const low = [box.low[a], box.low[b]], high = [box.high[a], box.high[b]];
  const width = high[0] - low[0] || 1, height = high[1] - low[1] || 1, most = Math.max(width, height);
  const size = 600 / most, margin = 46;
  const at = ([x, y]) => [margin + (x - low[0]) * size, 20 + (high[1] - y) * size].map((of) => Math.round(1000 * of) / 1000);
  film.setAttribute("viewBox", `0 0 ${(width * size + margin + 20).toFixed(1)} ${(height * size + 66).toFixed(1)}`);
  const parts = [svg("title", { id: "film-title" }, `Section ${names[state.axis]} = ${state.place}`), ...rules(low, high, at, most)];
  const curves = section();
  curves.forEach((pieces, surface) => {
    if (!pieces.length) return;
    const path = pieces.map(([p, q]) => `M${at(p)}L${at(q)}`).join("");
    parts.push(svg("path", { class: "curve", d: path, stroke: colourOf(surface), "data-surface": surface }));
  });
  film.replaceChildren(...parts);
  const met = curves.filter((pieces) => pieces.length).length, rule = ruling(most);
  byId("film-words").textContent = `${names[state.axis]} = ${state.place}: ${met} of ${mesh.surfaces.length} surfaces; ${names[a]} to the right, ${names[b]} upwards, rules every ${short(rule)}, ${short(5 * rule)} and ${short(10 * rule)}.`;
}

function rules(low, high, at, most) {
  const step = ruling(most), parts = [];
  [0, 1].forEach((way) => {
    const paths = { 1: "", 5: "", 10: "" };
    for (let k = Math.ceil(low[way] / step - 1e-9); k * step <= high[way] + 1e-9 * step; k++) {
      const ends = [low, high].map((end) => way === 0 ? [k * step, end[1]] : [end[0], k * step]);
      paths[k % 10 === 0 ? 10 : k % 5 === 0 ? 5 : 1] += `M${at(ends[0])}L${at(ends[1])}`;
      if (k % 10 !== 0) continue;
      const [x, y] = at(ends[0]);
      const place = way === 0 ? { x, y: y + 18, "text-anchor": "middle" } : { x: x - 6, y: y + 5, "text-anchor": "end" };
      parts.push(svg("text", { ...place, "font-size": 14 }, short(k * step)));
    }
    Object.entries(paths).forEach(([of, path]) => {
      if (path) parts.push(svg("path", { class: "rule", d: path, "stroke-width": { 1: 0.4, 5: 0.8, 10: 1.5 }[of] }));
    });
  });
  const [a, b] = filmAxes();
  const [right] = at([high[0], low[1]]), [left, top] = at([low[0], high[1]]);
  parts.push(svg("text", { x: right, y: at(low)[1] + 38, "text-anchor": "end", "font-size": 15 }, names[a]));
  parts.push(svg("text", { x: left - 34, y: top + 2, "font-size": 15 }, names[b]));
  return parts;
}

function moveSection(axis, place) {
  state.axis = axis;
  state.place = Math.min(Math.max(place, box.low[axis]), box.high[axis]);
  byId("axis").value = axis;
  byId("place").value = Number(state.place.toPrecision(12));
  byId("slider").value = Math.round(1000 * (state.place - box.low[axis]) / (box.high[axis] - box.low[axis] || 1));
  byId("slider").setAttribute("aria-valuetext", `${names[axis]} = ${short(state.place)}`);
  drawFilm();
  draw();
}

// ---- hands ----

const views = { home: [30, 20], x: [90, 0], y: [0, 0], z: [0, 90] };

function look(name) {
  [state.round, state.up] = views[name];
  state.zoom = 1;
  state.shift = [0, 0];
  draw();
}

function turn(round, up) {
  state.round = (state.round + round) % 360;
  state.up = Math.min(90, Math.max(-90, state.up + up));
  draw();
}

function shift(x, y) {
  state.shift = [state.shift[0] + x, state.shift[1] + y];
  draw();
}

// What is at this place of the canvas stays there.
function zoom(by, x = 0, y = 0) {
  const next = Math.min(1e4, Math.max(0.05, state.zoom * by)), real = next / state.zoom;
  state.zoom = next;
  state.shift = [x + (state.shift[0] - x) * real, y + (state.shift[1] - y) * real];
  draw();
}

function onCanvas(event) {
  const area = byId("view").getBoundingClientRect();
  return [2 * (event.clientX - area.left) / area.width - 1, 1 - 2 * (event.clientY - area.top) / area.height];
}

const pointers = new Map();
let moved = false;

function press(event) {
  const canvas = byId("view");
  canvas.setPointerCapture(event.pointerId);
  canvas.classList.add("moving");
  if (pointers.size === 0) moved = false;
  pointers.set(event.pointerId, [event.clientX, event.clientY]);
}

function drag(event) {
  const before = pointers.get(event.pointerId);
  if (!before) return;
  const by = [event.clientX - before[0], event.clientY - before[1]];
  // a hand that trembles still clicks
  if (!moved && Math.hypot(...by) < 4) return;
  moved = true;
  const canvas = byId("view"), part = [2 * by[0] / canvas.clientWidth, -2 * by[1] / canvas.clientHeight];
  if (pointers.size === 2) pinch(event, part);
  else if (event.shiftKey || (event.buttons & 6)) shift(...part);
  else turn(-by[0] * 0.4, by[1] * 0.4);
  pointers.set(event.pointerId, [event.clientX, event.clientY]);
}

// Two fingers: each moves the picture by half its way, and their distance zooms.
function pinch(event, part) {
  const [other] = [...pointers].filter(([id]) => id !== event.pointerId).map(([, at]) => at);
  const far = (at) => Math.hypot(at[0] - other[0], at[1] - other[1]);
  const from = far(pointers.get(event.pointerId)), to = far([event.clientX, event.clientY]);
  shift(part[0] / 2, part[1] / 2);
  if (from > 0 && to > 0) zoom(to / from, ...onCanvas({ clientX: (event.clientX + other[0]) / 2, clientY: (event.clientY + other[1]) / 2 }));
}

function release(event) {
  if (!pointers.delete(event.pointerId)) return;
  if (pointers.size === 0) byId("view").classList.remove("moving");
  if (!moved && event.type === "pointerup" && event.button === 0) choose(pick(...onCanvas(event)));
}

function key(event) {
  const way = { ArrowLeft: [-1, 0], ArrowRight: [1, 0], ArrowUp: [0, 1], ArrowDown: [0, -1] }[event.key];
  if (event.ctrlKey || event.metaKey || event.altKey) return;
  if (way && event.shiftKey) shift(0.08 * way[0], 0.08 * way[1]);
  else if (way) turn(-5 * way[0], -5 * way[1]);
  else if (event.key === "+" || event.key === "=") zoom(1.25);
  else if (event.key === "-") zoom(0.8);
  else if (event.key === "0") look("home");
  else if (["x", "y", "z"].includes(event.key)) look(event.key);
  else if (event.key === "Enter") choose(pick(0, 0));
  else if (event.key === "Escape") choose(-1);
  else return;
  event.preventDefault();
}

function listen() {
  const canvas = byId("view"), on = (id, kind, act) => byId(id).addEventListener(kind, act);
  canvas.addEventListener("pointerdown", press);
  canvas.addEventListener("pointermove", drag);
  ["pointerup", "pointercancel"].forEach((kind) => canvas.addEventListener(kind, release));
  canvas.addEventListener("contextmenu", (event) => event.preventDefault());
  canvas.addEventListener("keydown", key);
  canvas.addEventListener("wheel", (event) => {
    event.preventDefault();
    zoom(Math.exp(-event.deltaY * 0.0015), ...onCanvas(event));
  }, { passive: false });
  document.querySelectorAll("[data-view]").forEach((button) => button.addEventListener("click", () => look(button.dataset.view)));
  document.querySelectorAll("[data-zoom]").forEach((button) => button.addEventListener("click", () => zoom(Number(button.dataset.zoom))));
  ["show-grid", "show-open", "show-sides", "cut"].forEach((id) => on(id, "change", draw));
  on("surfaces", "change", (event) => show([Number(event.target.dataset.surface)], event.target.checked));
  on("all-on", "click", () => show([...mesh.surfaces.keys()], true));
  on("all-off", "click", () => show([...mesh.surfaces.keys()], false));
  on("axis", "change", (event) => moveSection(Number(event.target.value), middle[event.target.value]));
  on("place", "change", (event) => { if (event.target.value !== "") moveSection(state.axis, Number(event.target.value)); });
  on("slider", "input", (event) => moveSection(state.axis, box.low[state.axis] + event.target.value / 1000 * (box.high[state.axis] - box.low[state.axis])));
  on("number", "change", (event) => {
    const asked = Number(event.target.value);
    choose(event.target.value !== "" && Number.isInteger(asked) && asked >= 0 && asked < triangleCount ? asked : -1);
  });
  on("let-go", "click", () => choose(-1));
  on("theme", "change", applyTheme);
  matchMedia("(prefers-color-scheme: dark)").addEventListener("change", applyTheme);
  [["beforeprint", true], ["afterprint", false]].forEach(([kind, printing]) => window.addEventListener(kind, () => {
    state.printing = printing;
    applyTheme();
    drawNow();
  }));
}

function start() {
  const of = (count, thing) => `${number.format(count)} ${thing}${count === 1 ? "" : "s"}`;
  byId("summary").textContent = `${of(mesh.cells, "cell")}, ${of(mesh.crossings, "crossing")}, ${of(triangleCount, "triangle")}, ${of(mesh.surfaces.length, "surface")}, ${of(mesh.open.length / 2, "open side")}`;
  byId("number").max = Math.max(0, triangleCount - 1);
  startDrawing();
  listen();
  moveSection(1, middle[1]);
  applyTheme();
  document.documentElement.dataset.ready = "yes";
}

try {
  start();
} catch (error) {
  byId("error").hidden = false;
  byId("error").textContent = `The page cannot show this mesh: ${error.message}`;
  throw error;
}
