#!/usr/bin/env escript
%% Reads octets by what Erlang/OTP's compiler makes of ASN.1 modules, and prints what they spell as JSON, by its backend
%% for the JSON Encoding Rules.
%%
%% usage: jer.escript FOLDER LINES OUT
%%
%% FOLDER has Uper.asn1, Aper.asn1 and Jer.asn1, the same types under three names; what the compiler makes of them is
%% put beside them. LINES has a line VARIANT TYPE HEXADECIMAL for each encoding, and OUT gets its JSON, or `!` and what
%% was said.
-mode(compile).

main([Folder, Lines, Out]) ->
    {ok, Text} = file:read_file(Lines),
    ok = file:set_cwd(Folder),
    [ok = asn1ct:compile(Module, [Rule, {i, "."}]) || {Module, Rule} <- [{"Uper", uper}, {"Aper", per}, {"Jer", jer}]],
    true = code:add_patha("."),
    %% The backend gives the term that it means to a library for JSON, of which this module stands in the place.
    Forms = [{attribute, 1, module, jsx}, {attribute, 1, export, [{encode, 1}]},
        {function, 1, encode, 1, [{clause, 1, [{var, 1, 'Term'}], [], [{var, 1, 'Term'}]}]}],
    {ok, jsx, Code} = compile:forms(Forms),
    {module, jsx} = code:load_binary(jsx, "jsx.erl", Code),
    Split = [binary:split(Line, <<" ">>, [global]) || Line <- binary:split(Text, <<"\n">>, [global, trim_all])],
    ok = file:write_file(Out, [[line(Words), $\n] || Words <- Split]).

line([Variant, Name, Digits]) ->
    Module = case Variant of <<"uper">> -> 'Uper'; <<"aper">> -> 'Aper' end,
    Type = binary_to_atom(Name),
    case catch Module:decode(Type, binary:decode_hex(Digits)) of
        {ok, Value} ->
            case catch 'Jer':encode(Type, Value) of
                {ok, Term} -> json(Term);
                Why -> ["! write ", said(Why)]
            end;
        Why -> ["! read ", said(Why)]
    end.

said(Why) -> [C || C <- lists:flatten(io_lib:format("~0P", [Why, 20])), C >= 32, C < 127].

json(true) -> "true";
json(false) -> "false";
json(null) -> "null";
json(Number) when is_integer(Number) -> integer_to_list(Number);
json(Name) when is_atom(Name) -> text(atom_to_binary(Name));
json(Text) when is_binary(Text) -> text(Text);
json(Members) when is_map(Members) -> object(maps:to_list(Members));
json([{}]) -> "{}";
json([{_, _} | _] = Members) -> object(Members);
json(Items) when is_list(Items) -> ["[", lists:join(",", [json(Item) || Item <- Items]), "]"].

object(Members) ->
    ["{", lists:join(",", [[json(name(Name)), ":", json(Value)] || {Name, Value} <- Members]), "}"].

name(Name) when is_atom(Name) -> atom_to_binary(Name);
name(Name) -> Name.

%% The compiler's texts are of ASCII.
text(Text) -> ["\"", [character(C) || <<C>> <= Text], "\""].

character(C) when C < 32; C > 126; C =:= $"; C =:= $\\ -> io_lib:format("\\u~4.16.0b", [C]);
character(C) -> C.
