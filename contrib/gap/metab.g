# metab from GAP: Read("contrib/gap/metab.g");
#
#   MetabWord(w)                    the text of a word, an element of a free or finitely presented group
#   MetabPresentation(G [, m])      the text of a finitely presented group, with the modulus m
#   MetabSolve(program, G, questions [, m])
#                                   the verdicts of metab on questions about G: a list of texts
#
# program is the path of metab, as "./metab" where GAP was started beside it. A question is one of
#
#   ["trivial", w]   ["equal", u, v]   ["normal", w]   ["hom", H, images]
#
# with elements of G, and for the last a finitely presented group H and an element of G for each of its generators.
# Words go over letter by letter, so it plays no part that Comm(u, v) is u^-1 v^-1 u v in GAP.

# These names where metab reads them all, else x1, x2, ..
MetabReadable := function(names)
    local letters, isName;
    letters := "abcdefghijklmnopqrstuvwxyzABCDEFGHIJKLMNOPQRSTUVWXYZ";
    isName := name -> name[1] in letters and ForAll(name, c -> c in letters or c in "0123456789_");
    if ForAll(names, isName) then
        return names;
    fi;
    return List([1 .. Length(names)], i -> Concatenation("x", String(i)));
end;

# The names of the generators of a finitely presented group.
MetabNames := G -> MetabReadable(List(GeneratorsOfGroup(FreeGroupOfFpGroup(G)), String));

# The text of a word by these names.
MetabText := function(word, names)
    local pairs, factors, i;
    if IsElementOfFpGroup(word) then
        word := UnderlyingElement(word);
    fi;
    pairs := ExtRepOfObj(word);
    if Length(pairs) = 0 then
        return "1";
    fi;
    factors := [];
    for i in [1, 3 .. Length(pairs) - 1] do
        if pairs[i + 1] = 1 then
            Add(factors, names[pairs[i]]);
        else
            Add(factors, Concatenation(names[pairs[i]], "^", String(pairs[i + 1])));
        fi;
    od;
    return JoinStringsWithSeparator(factors, " ");
end;

MetabWord := function(word)
    if IsElementOfFpGroup(word) then
        word := UnderlyingElement(word);
    fi;
    return MetabText(word, MetabReadable(FamilyObj(word)!.names));
end;

MetabPresentation := function(G, modulus...)
    local names, text;
    names := MetabNames(G);
    text := Concatenation("<", JoinStringsWithSeparator(names, ", "), " | ",
        JoinStringsWithSeparator(List(RelatorsOfFpGroup(G), r -> MetabText(r, names)), ", "), ">");
    if Length(modulus) > 0 then
        Append(text, Concatenation(" modulus ", String(modulus[1])));
    fi;
    return text;
end;

# The line of a session that asks a question.
MetabQuestion := function(question, names)
    local word;
    word := w -> MetabText(w, names);
    if question[1] = "equal" then
        return Concatenation("equal ", word(question[2]), " = ", word(question[3]));
    elif question[1] = "hom" then
        return Concatenation("hom ", MetabPresentation(question[2]), " -> ",
            JoinStringsWithSeparator(List(question[3], word), ", "));
    fi;
    return Concatenation(question[1], " ", word(question[2]));
end;

MetabSolve := function(program, G, questions, modulus...)
    local folder, pres, session, report, status, verdicts, line, parts, place, names, text;
    names := MetabNames(G);
    folder := DirectoryTemporary();
    pres := Filename(folder, "pres");
    session := Filename(folder, "session");
    FileString(pres, CallFuncList(MetabPresentation, Concatenation([G], modulus)));
    text := "";
    for line in questions do
        Append(text, MetabQuestion(line, names));
        Append(text, "\n");
    od;
    FileString(session, text);
    report := "";
    status := Process(DirectoryCurrent(), program, InputTextNone(), OutputTextString(report, false), ["solo", pres, session]);
    if not status in [0, 1] then
        Error("metab ended with status ", status, ": ", report);
    fi;
    # A question's last line has its verdict, behind the only colon.
    verdicts := [];
    for line in SplitString(report, "\n") do
        parts := SplitString(line, " ");
        if Length(parts) > 0 and parts[1] in ["live", "close"] then
            place := PositionSublist(line, " : ");
            verdicts[Int(parts[3])] := line{[place + 3 .. Length(line)]};
        fi;
    od;
    return verdicts;
end;
