"""A schema text written as an OWL ontology, in functional syntax."""

HEADER = """Prefix(:=<urn:wempridol#>)
Prefix(owl:=<http://www.w3.org/2002/07/owl#>)
Ontology(<urn:wempridol>
"""


def end_words(end):
    """An end as a property: the arrow itself from its tail, its inverse from its head."""
    arrow = f":arrow{end // 2}"
    return arrow if end % 2 == 0 else f"ObjectInverseOf({arrow})"


def axiom(row):
    letter, a, b, n = row
    if letter == "S":
        return f"SubClassOf(:class{a} :class{b})"
    if letter == "X":
        return f"SubClassOf(:class{a} ObjectComplementOf(:class{b}))"
    if letter == "D":
        kind = "Domain" if a % 2 == 0 else "Range"
        return f"ObjectProperty{kind}(:arrow{a // 2} :class{b})"
    if letter == "F":
        return f"SubClassOf(:class{a} ObjectMinCardinality({n} {end_words(b)}))"
    if letter == "K":
        return f"SubClassOf(:class{a} ObjectMaxCardinality({n} {end_words(b)}))"
    if letter == "P":
        return f"SubObjectPropertyOf(:arrow{a} :arrow{b})"
    if a == b:
        # Disjointness of a property from itself says that it has no pair.
        return f"ObjectPropertyDomain(:arrow{a} owl:Nothing)"
    return f"DisjointObjectProperties(:arrow{a} :arrow{b})"


def ontology(classes, arrows, rows):
    """The axioms; what has the tail of an arrow gets a class of its own, which
    is unsatisfiable just when the arrow is empty."""
    lines = [f"Declaration(Class(:class{number}))" for number in range(classes)]
    for number in range(arrows):
        lines.append(f"Declaration(ObjectProperty(:arrow{number}))")
        lines.append(f"Declaration(Class(:tail{number}))")
        tail = f"ObjectSomeValuesFrom(:arrow{number} owl:Thing)"
        lines.append(f"EquivalentClasses(:tail{number} {tail})")
    lines += [axiom(row) for row in rows]
    return HEADER + "\n".join(lines) + "\n)\n"
