// What the search finds: a name, its kind, its name in full, its place and its line.
const NAMES = [
{% set kinds = {"ghost": "ghost member", "mod": "module", "type": "alias", "foreign": "of another library"} %}
{% for item in site.shown() if item.name and item.url and item.kind not in ("impl", "field") and not (item.owner and item.owner.kind == "impl" and item.owner.trait) %}
{% set full = site.full_name(item) %}
{% set kind = ("method" if "::" in full else "function") if item.kind == "fn" else kinds.get(item.kind, item.kind) %}
{{ [item.name, kind, full, item.url, (item|line).replace("`", "")]|tojson }},
{% endfor %}
{% for word in pages.words %}
{{ [word.name, "word", word.module ~ "." ~ word.name, word.url, word|line]|tojson }},
{% endfor %}
];
