// The places of battles in the module's memory. The module has no allocator.
//
// A block holds one battle. Blocks belong to packs, and a pack is freed when no battle with one of its blocks is left: registering each
// battle with the garbage collector would take longer than an update. A region holds the battles of an array.

const PAGE = 65536;
/** The size of a battle. */
export const BATTLE_SIZE = 384;
const PACKED = 16;
// A page holds ten packs.
const PACKS = Math.floor(PAGE / (PACKED * BATTLE_SIZE));

/** The space of a battle: a pointer, its offset in the memory, and the pack, which the block keeps alive. */
class Block {
  constructor(pointer, place, pack) {
    this.pointer = pointer;
    this.place = place;
    this.pack = pack;
  }
}

/** The space of an array of battles. */
class Region {
  constructor(pointer, place, pages) {
    this.pointer = pointer;
    this.place = place;
    this.pages = pages;
  }
}

/** Allocates from memory that `library` grows. */
export class Arena {
  #library;
  #pack = {};
  #next = 0;
  #left = 0;
  // Blocks that were freed one by one, and the places of whole packs.
  #blocks = [];
  #packs = [];
  // The places of regions, by their pages, which are powers of two.
  #regions = new Map();
  #collected = new FinalizationRegistry((give) => give());

  constructor(library) {
    this.#library = library;
  }

  /** A block for a battle. Its bytes are undefined. */
  block() {
    const spare = this.#blocks.pop();
    if (spare !== undefined) return spare;
    if (this.#left === 0) this.#begin();
    const place = this.#next;
    this.#next += BATTLE_SIZE;
    this.#left--;
    return new Block(this.#library.size(place), place, this.#pack);
  }

  /** Frees a block at once. */
  free(block) {
    this.#blocks.push(block);
  }

  // Begins the next pack.
  #begin() {
    if (!this.#packs.length) {
      const page = this.#library.grow(1);
      for (let pack = PACKS - 1; pack >= 0; pack--) this.#packs.push(page + pack * PACKED * BATTLE_SIZE);
    }
    const [pack, packs, place] = [{}, this.#packs, this.#packs.pop()];
    this.#collected.register(pack, () => packs.push(place));
    [this.#pack, this.#next, this.#left] = [pack, place, PACKED];
  }

  /** A region of at least `count` bytes for `owner`. It is freed when the owner is garbage collected, or by `freeRegion`. */
  region(count, owner) {
    const pages = 2 ** Math.ceil(Math.log2(Math.max(1, count / PAGE)));
    const place = this.#regionsOf(pages).pop() ?? this.#library.grow(pages);
    const region = new Region(this.#library.size(place), place, pages);
    this.#collected.register(owner, () => this.freeRegion(region));
    return region;
  }

  /** Frees a region, once. */
  freeRegion(region) {
    if (region.pages) this.#regionsOf(region.pages).push(region.place);
    region.pages = 0;
  }

  #regionsOf(pages) {
    const found = this.#regions.get(pages);
    if (found) return found;
    this.#regions.set(pages, []);
    return this.#regions.get(pages);
  }
}
