"use strict";
// Modules of wasm that answer requests of text (hooks/src/lib.rs, fonts/src/lib.rs).

const decoded = (text) => Uint8Array.from(atob(text), (letter) => letter.charCodeAt(0));

// The bytes that a script holds, packed by gzip and in base64.
async function unpacked(packed) {
  const bytes = decoded(packed);
  const stream = new Blob([bytes]).stream().pipeThrough(new DecompressionStream("gzip"));
  return new Response(stream).arrayBuffer();
}

class Module {
  static async load(packed) {
    const module = new Module();
    module.compiled = await WebAssembly.compile(await unpacked(packed));
    await module.start();
    return module;
  }

  async start() {
    this.calls = (await WebAssembly.instantiate(this.compiled)).exports;
    if (this.font) this.takeFont(this.font);
  }

  // Gives the module a font, which it has again where it is started anew.
  takeFont(bytes) {
    this.font = bytes;
    this.write(bytes, this.calls.font_room);
  }

  // Writes bytes where the module wants them.
  write(bytes, room = this.calls.room) {
    const at = room(bytes.length);
    new Uint8Array(this.calls.memory.buffer, at, bytes.length).set(bytes);
  }

  // The answer to a request; throws where the module ends, which is then started anew.
  ask(request) {
    try {
      this.write(new TextEncoder().encode(request));
      const at = this.calls.answer();
      const bytes = new Uint8Array(this.calls.memory.buffer, at, this.calls.length());
      return JSON.parse(new TextDecoder("utf-8", { ignoreBOM: true }).decode(bytes));
    } catch (error) {
      this.start();
      throw error;
    }
  }
}

// An element with these attributes and children, texts among them.
function made(name, attributes = {}, ...children) {
  const element = document.createElement(name);
  for (const [key, value] of Object.entries(attributes)) element.setAttribute(key, value);
  element.append(...children);
  return element;
}

const by = (id) => document.getElementById(id);
