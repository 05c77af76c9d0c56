// What the levels and the modes mean, in words.

export const LEVELS = {
  BACKWARD: "A new schema has to read what the latest version wrote.",
  BACKWARD_TRANSITIVE: "A new schema has to read what every version wrote.",
  FORWARD: "The latest version has to read what a new schema writes.",
  FORWARD_TRANSITIVE: "Every version has to read what a new schema writes.",
  FULL: "A new schema and the latest version have to read each other's data.",
  FULL_TRANSITIVE: "A new schema and every version have to read each other's data.",
  NONE: "Nothing is checked: every schema may be registered.",
};

export const MODES = {
  READWRITE: "Schemas may be registered and deleted.",
  READONLY: "Nothing may be registered or deleted.",
  IMPORT: "Schemas are registered with ids of another registry, and in no other way.",
};
