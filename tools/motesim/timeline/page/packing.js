// Bytes that are compressed and written in the letters of base64.

/** Bytes that pass through a stream which packs or unpacks them. Fails if more than `most` come out.
 * @param {Uint8Array} bytes @param {any} through @returns {Promise<Uint8Array>} */
async function piped(bytes, through, most = Infinity) {
  const reader = new Blob([/** @type {BlobPart} */ (bytes)]).stream().pipeThrough(through).getReader(), parts = [];
  let length = 0;
  for (let got = await reader.read(); !got.done; got = await reader.read()) {
    length += got.value.length;
    if (length > most) throw new Error('the text in the link is too long');
    parts.push(got.value);
  }
  return new Uint8Array(await new Blob(parts).arrayBuffer());
}

/** The bytes that were compressed in a format and written in base64. */
export function unpacked(letters, format = 'deflate', most = Infinity) {
  return piped(Uint8Array.from(atob(letters.trim()), it => it.charCodeAt(0)), new DecompressionStream(format), most);
}

export async function packed(text, format = 'deflate-raw') {
  const bytes = await piped(new TextEncoder().encode(text), new CompressionStream(format));
  return btoa(Array.from(bytes, it => String.fromCharCode(it)).join(''));
}
