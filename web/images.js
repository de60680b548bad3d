// Makes images in the format of docs/FORMATS.md: a header, a body, a protected area if the image needs others, and an
// unprotected area with the digest of all bytes before it.

const number = (value, size) => Array.from({ length: size }, (_, i) => (value >>> (8 * i)) & 0xff);

export const versionBytes = (it) => [it.major, it.minor, ...number(it.revision, 2), ...number(it.build, 4)];

/** Returns the version in a text such as 2.0.0 or 2.0.0+7, or nothing if it isn't a version. */
export function versionOf(text) {
  const found = /^(\d+)(?:\.(\d+)(?:\.(\d+)(?:\+(\d+))?)?)?$/.exec(text.trim());
  if (!found) return null;
  const [major, minor, revision, build] = found.slice(1).map((it) => Number(it ?? 0));
  const fits = major < 256 && minor < 256 && revision < 65536 && build < 2 ** 32;
  return fits ? { major, minor, revision, build } : null;
}

/** Returns the needs in a list such as `1 2.0.0, 2 1.1`, or nothing if it isn't such a list. */
export function needsOf(text) {
  const parts = text.split(",").filter((it) => it.trim());
  const needs = parts.map((it) => {
    const [image, version] = it.trim().split(/\s+/);
    return { image: Number(image), minimum: versionOf(version ?? "") };
  });
  const right = (it) => Number.isInteger(it.image) && it.image >= 0 && it.image < 256 && it.minimum;
  return needs.length <= 16 && needs.every(right) ? needs : null;
}

function area(magic, entries) {
  const body = entries.flatMap(([kind, value]) => [...number(kind, 2), ...number(value.length, 2), ...value]);
  return [...number(magic, 2), ...number(4 + body.length, 2), ...body];
}

/** Makes an image of a version, with these needs and a body of this number of bytes. */
export function makeImage(digest, image, version, needs, bodyLength) {
  const seed = [image, ...versionBytes(version)];
  const body = Array.from({ length: bodyLength }, (_, i) => (seed[i % 3] * 37 + i * 11 + (i >> 6)) & 0xff);
  const entries = needs.map((it) => [0x40, [it.image, 0, 0, 0, ...versionBytes(it.minimum)]]);
  const inner = entries.length ? area(0x6908, entries) : [];
  const lengths = [...number(32, 2), ...number(inner.length, 2), ...number(body.length, 4)];
  const header = [...number(0x96f3b83d, 4), 0, 0, 0, 0, ...lengths, 0, 0, 0, 0, ...versionBytes(version), 0, 0, 0, 0];
  const hashed = Uint8Array.from([...header, ...body, ...inner]);
  return Uint8Array.from([...hashed, ...area(0x6907, [[0x10, [...digest(hashed)]]])]);
}
