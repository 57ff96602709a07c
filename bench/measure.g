# Times free generators, membership, and products over the free generators for the systems that were
# read before, and membership where the folded graph has to be built first, and compares ranks and
# memberships with those of the Rust version.

if LoadPackage("fga", false) <> true then
    Print("the package FGA is not installed: nothing is measured\n");
    QuitGap(0);
fi;

group := FreeGroup("a", "b", "c");;
family := FamilyObj(group.1);;

# The word of a list of letters.
word := letters -> AssocWordByLetterRep(family, letters);;

# The time that a function takes, in microseconds.
time_of := function(work)
    local start;
    start := NanosecondsSinceEpoch();
    work();
    return Int((NanosecondsSinceEpoch() - start) / 1000);
end;;

# Measures one kind of systems and prints a line for each question.
measure := function(kind)
    local count, subgroups, anew, again, targets, times, agree, found, found_anew, products, name;
    count := Length(kind.systems);
    subgroups := List(kind.systems, system -> Subgroup(group, List(system.words, word)));
    anew := List(kind.systems, system -> Subgroup(group, List(system.words, word)));
    again := List(kind.systems, system -> Subgroup(group, List(system.words, word)));
    targets := List(kind.systems, system -> List(system.targets, word));
    GASMAN("collect");
    times := [];
    times[1] := time_of(function() Perform(subgroups, FreeGeneratorsOfGroup); end);
    times[2] := time_of(function()
        found := List([1 .. count], n -> List(targets[n], target -> target in subgroups[n]));
    end);
    times[3] := time_of(function()
        products := List([1 .. count], n -> List(targets[n],
            target -> AsWordLetterRepInFreeGenerators(target, subgroups[n])));
    end);
    times[4] := time_of(function()
        found_anew := List([1 .. count], n -> List(targets[n], target -> target in anew[n]));
    end);
    times[5] := time_of(function()
        Perform([1 .. count], function(n) return targets[n][1 + n mod 2] in again[n]; end);
    end);
    agree := ForAll([1 .. count], function(n)
        return Length(FreeGeneratorsOfGroup(subgroups[n])) = kind.systems[n].rank
            and found[n] = kind.systems[n].members
            and found_anew[n] = found[n]
            and List(products[n], product -> product <> fail) = found[n];
    end);
    if kind.independent then name := "independent"; else name := "dependent"; fi;
    Print(count, " systems of 12 words of 5 to 30 letters, 3 generators, ", name, "\n");
    Print("  free generators:                 ", Int(times[1] / count), " microseconds a system\n");
    Print("  30 targets, member or not:       ", Int(times[2] / count), " microseconds a system\n");
    Print("  30 targets, with their products: ", Int(times[3] / count), " microseconds a system\n");
    Print("  30 targets, the graph first:     ", Int(times[4] / count), " microseconds a system\n");
    Print("  1 target, the graph first:       ", Int(times[5] / count), " microseconds a system\n");
    Print("  ranks and memberships as in the Rust version: ", agree, "\n");
end;;

Perform(kinds, measure);
QuitGap(0);
