// Tokens: a shape for each member, with colours by its types and a body by its highest base stat.

const BODIES = {
  hp: "M50 16C80 16 92 38 90 62C88 84 70 92 50 92C30 92 12 84 10 62C8 38 20 16 50 16Z",
  attack: "M16 10L36 26Q50 20 64 26L84 10L84 46Q94 66 80 82Q66 92 50 92Q34 92 20 82Q6 66 16 46Z",
  defense: "M50 12L82 24L92 54L80 84L50 92L20 84L8 54L18 24Z",
  speed: "M50 6Q64 28 90 36Q80 56 84 86Q64 80 50 92Q36 80 16 86Q20 56 10 36Q36 28 50 6Z",
  special: "M50 6C56 26 86 38 86 64C86 84 70 92 50 92C30 92 14 84 14 64C14 38 44 26 50 6Z",
};
/** @type {Record<string, string>} the background of a body, by type */
const BEHIND = {
  Flying: "<path class=\"limb\" d=\"M18 58Q-8 40 4 22Q14 34 32 40ZM82 58Q108 40 96 22Q86 34 68 40Z\"/>",
  Bug: "<path class=\"wire\" d=\"M38 24Q30 4 20 4M62 24Q70 4 80 4\"/>",
  Dragon: "<path class=\"limb\" d=\"M76 84Q104 92 96 62Q94 76 82 72Z\"/>",
  Water: "<path class=\"limb\" d=\"M10 66Q-6 62 -4 80Q8 84 18 78ZM90 66Q106 62 104 80Q92 84 82 78Z\"/>",
};

/**
 * The stat that shapes a body: the one that is highest against the average of all species.
 * @param {import("gen1").Base} base
 */
function bodyOf(base) {
  /** @type {[keyof typeof BODIES, number][]} */
  const shares = [
    ["hp", base.hp / 64], ["attack", base.attack / 73], ["defense", base.defense / 69], ["speed", base.speed / 69],
    ["special", base.special / 67]
  ];
  return shares.reduce((best, it) => (it[1] > best[1] ? it : best))[0];
}

/** @param {string} species */
function initials(species) {
  return species.replace(/[^A-Za-z♀♂]/g, "").slice(0, 2);
}

/**
 * A token as SVG. Its state is set by classes: slp, frz, substitute, under, above, fallen.
 * @param {import("./engine.js").Engine} engine
 * @param {string} species
 */
export function token(engine, species) {
  const made = document.createElementNS("http://www.w3.org/2000/svg", "svg");
  made.setAttribute("viewBox", "-10 -4 120 104");
  made.setAttribute("aria-hidden", "true");
  made.setAttribute("class", "token");
  const types = engine.tables.species[species];
  if (!types) {
    made.innerHTML =
        "<circle class=\"body unknown\" cx=\"50\" cy=\"52\" r=\"38\"/><text class=\"initials\" x=\"50\" y=\"64\">?</text>";
    return made;
  }
  const [first, second] = types.map((type) => `of-${type.toLowerCase()}`);
  // The parts are fixed texts and letters of a name in the tables.
  made.innerHTML = `<ellipse class="shade" cx="50" cy="95" rx="36" ry="6"/><g class="whole"><g class="${second}">${
      types.map((type) => BEHIND[type] ?? "").join("")}</g>
    <path class="body ${first}" d="${BODIES[bodyOf(engine.gen1.base(species))]}"/><ellipse class="belly ${
      second}" cx="50" cy="74" rx="25" ry="15"/>
    <g class="eyes"><circle cx="37" cy="46" r="8"/><circle cx="63" cy="46" r="8"/><circle class="pupil" cx="38" cy="47" r="4"/><circle class="pupil" cx="62" cy="47" r="4"/></g>
    <path class="lids" d="M29 46Q37 53 45 46M55 46Q63 53 71 46"/><text class="initials" x="50" y="81">${
      initials(species)}</text></g>
    <path class="ice" d="M8 12L92 4L102 88L14 98Z"/><text class="zzz" x="80" y="22">z z</text>
    <g class="doll"><path d="M8 98V70Q8 56 22 56Q36 56 36 70V98Z"/><circle class="pupil" cx="17" cy="70" r="3"/><circle class="pupil" cx="27" cy="70" r="3"/></g>
    <path class="mound" d="M-8 98Q10 66 50 66Q90 66 108 98Z"/>`;
  return made;
}
