# Holds verdicts of metab against GAP's own computations in finite groups: contrib/gap/test PROGRAM runs it.
Read("metab.g");

passed := 0;
failed := 0;

expect := function(what, got, wanted)
    if got = wanted then
        passed := passed + 1;
    else
        failed := failed + 1;
        Print(what, ": ", got, ", wanted ", wanted, "\n");
    fi;
end;

# The largest quotient of a finite group whose derived subgroup is abelian, of exponent dividing m where m isn't 0.
quotient := function(G, m)
    local derived, kernel;
    derived := DerivedSubgroup(G);
    kernel := DerivedSubgroup(derived);
    if m > 0 then
        kernel := ClosureGroup(kernel, List(GeneratorsOfGroup(derived), g -> g^m));
        kernel := NormalClosure(G, kernel);
    fi;
    return NaturalHomomorphismByNormalSubgroup(G, kernel);
end;

# Random words of a group, and what metab and GAP say of them, of pairs of them and of maps.
compare := function(program, name, G, m)
    local modulus, perm, over, words, questions, wanted, image, free, got, i;
    modulus := Filtered([m], k -> k > 0);
    perm := IsomorphismPermGroup(G);
    over := quotient(Image(perm), m);
    image := w -> Image(over, Image(perm, w));
    words := List([1 .. 40], i -> Product([1 .. Random(1, 9)], k -> Random(GeneratorsOfGroup(G))^Random([-2, -1, 1, 2])));
    Append(words, List([1 .. 10], i -> Comm(words[i], words[i + 10])));
    Append(words, List([1 .. 10], i -> Comm(Comm(words[i], words[i + 20]), Comm(words[i + 10], words[i + 15]))));
    questions := List(words, w -> ["trivial", w]);
    wanted := List(words, function(w) if IsOne(image(w)) then return "trivial"; fi; return "not-trivial"; end);
    for i in [1 .. 20] do
        Add(questions, ["equal", words[i], words[i + 20]]);
        if image(words[i]) = image(words[i + 20]) then Add(wanted, "trivial"); else Add(wanted, "not-trivial"); fi;
    od;
    # A map of a free abelian group of rank 2 extends where the images commute.
    free := FreeGroup("u", "v");
    free := free / [Comm(free.1, free.2)];
    for i in [1 .. 20] do
        Add(questions, ["hom", free, [words[i], words[i + 5]]]);
        if IsOne(image(Comm(words[i], words[i + 5]))) then Add(wanted, "extends"); else Add(wanted, "fails 1"); fi;
    od;
    got := CallFuncList(MetabSolve, Concatenation([program, G, questions], modulus));
    for i in [1 .. Length(questions)] do
        expect(Concatenation(name, ", question ", String(i)), got[i], wanted[i]);
    od;
end;

main := function(program)
    local F, a, b, groups, entry, m;
    F := FreeGroup("a", "b");
    a := F.1;
    b := F.2;
    expect("a word", MetabWord(Comm(a, b)), "a^-1 b^-1 a b");
    expect("a presentation", MetabPresentation(F / [a^3, a * b^-2]), "<a, b | a^3, a b^-2>");
    expect("other names", MetabPresentation(FreeGroup("p.1") / [], 6), "<x1 | > modulus 6");
    groups := [
        ["symmetric 3", F / [a^2, b^3, (a * b)^2]],
        ["dihedral 12", F / [a^2, b^6, (a * b)^2]],
        ["quaternion", F / [a^4, a^2 * b^-2, b * a * b^-1 * a]],
        ["alternating 4", F / [a^2, b^3, (a * b)^3]],
        ["symmetric 4", F / [a^2, b^3, (a * b)^4]],
        ["alternating 5", F / [a^2, b^3, (a * b)^5]],
        ["SL(2, 3)", F / [a^3 * b^-3, a^3 * (a * b)^-2]],
        ["of order 21", F / [a^7, b^3, b * a * b^-1 * a^-2]],
        ["of order 64", F / [a^8, b^8, b * a * b^-1 * a^-3, (a * b)^8]],
    ];
    for entry in groups do
        for m in [0, 2, 3] do
            compare(program, Concatenation(entry[1], " modulo ", String(m)), entry[2], m);
        od;
    od;
    Print("gap: ", passed, " passed, ", failed, " failed\n");
    if failed > 0 or passed = 0 then
        ForceQuitGap(1);
    fi;
    ForceQuitGap(0);
end;

main(GAPInfo.SystemEnvironment.METAB);
