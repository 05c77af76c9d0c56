// A new subject: its name, and its first schema.
import { linkOf } from "./address.js";
import { clearVerdict, makeCheckForm } from "./check.js";
import { by } from "./elements.js";

let form;
let given; // the address that was shown last

export function prepareFresh(registering) {
  form = makeCheckForm(by("fresh-check"), {
    subject: () => (by("fresh-name").reportValidity() ? by("fresh-name").value : undefined),
    yes: () => "Nothing is against registering it.",
    link: ({ schema }) => linkOf({ new: by("fresh-name").value, check: schema.value }),
    registering,
  });
}

/** Shows what the address gives. If it is shown `again`, what was typed since stays. */
export function showFresh(choice, again) {
  const address = JSON.stringify(choice);
  if (again && address === given) return;
  given = address;
  by("fresh-name").value = choice.new;
  if (choice.check !== undefined) form.schema.value = choice.check;
  clearVerdict(form);
  by("fresh-title").focus();
}
