// What the page shows is behind the # of its address, so that each view has a link.

const MEMBERS = ["subject", "version", "since", "as", "check", "against", "id", "new"];
const LONGEST = 60_000; // characters of a link that mail and chat programs still pass on

/** What the address asks for: `subject`, `version` and so on, undefined where it doesn't say. */
export function readAddress() {
  const given = new URLSearchParams(location.hash.slice(1));
  return Object.fromEntries(MEMBERS.map((member) => [member, given.get(member) ?? undefined]));
}

/** The part of a link behind the page's own address. */
export function addressOf(choice) {
  const given = Object.entries(choice).filter(([, value]) => value !== undefined);
  return `#${new URLSearchParams(given)}`;
}

/** A whole link, or undefined where it would be too long. */
export function linkOf(choice) {
  const link = `${location.origin}${location.pathname}${addressOf(choice)}`;
  return link.length > LONGEST ? undefined : link;
}
