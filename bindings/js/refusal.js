/** A pattern, or its flags, that cannot be read. Kind, values, field and help are those of docs/JSON.md; its `name` is the code here. */
export class RegExpRefused extends SyntaxError {
  static {
    Object.defineProperty(this.prototype, "name", { value: "RegExpRefused", writable: true, configurable: true });
  }

  constructor({ code, kind, values, message, field, spans, help }) {
    super(message);
    this.code = code;
    this.kind = kind;
    this.values = values;
    this.field = field;
    this.spans = spans;
    this.help = help;
  }

  toJSON() {
    const { code, kind, values, message, field, spans, help } = this;
    return { name: code, kind, values, message, field, spans, help };
  }
}

/** The values of a refusal, by its code: of the texts that it holds, and of how many groups there are. */
export function valuesOf(code, texts, max) {
  switch (code) {
    case "unknown_flag":
    case "duplicated_flags":
      return { flag: texts[0] };
    case "invalid_indexed_reference":
      return { max };
    case "invalid_named_reference":
      return { names: texts };
    case "invalid_unicode_property_name_negative_strings":
    case "invalid_unicode_property_of_strings":
      return { name: texts[0] };
    default:
      return {};
  }
}
