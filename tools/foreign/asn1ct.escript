#!/usr/bin/env escript
%% Encodes values, or reads octets and encodes what they spell, by what Erlang/OTP's compiler makes of ASN.1 modules.
%%
%% usage: asn1ct.escript compile FOLDER RULE MODULE..
%%        asn1ct.escript encode FOLDER VALUES OUT
%%        asn1ct.escript recode FOLDER LINES OUT
%%
%% FOLDER has MODULE.asn1 of all modules; `compile` puts what it makes of them beside them. RULE is uper or per. VALUES has a
%% term {Module, Type, Value} for each encoding, LINES a line MODULE TYPE HEXADECIMAL. OUT gets a line for each: hexadecimal
%% digits, or `!`, `read` or `write`, and what was said. In a value {contained, Module, Type, Value} stands for the octets
%% that encode another.
%%
%% Two optimizations are left out: of asn1ct's, which ends in a fault of its own at an added alternative of one number
%% (enc_opt_hoist_align), and of Erlang's compiler, which loses what stands before an open type with a number (no_type_opt).
-mode(compile).

main(["compile", Folder, Rule | Modules]) ->
    ok = file:set_cwd(Folder),
    hoist_nothing(),
    [ok = asn1ct:compile(Module ++ ".asn1", [list_to_atom(Rule), no_type_opt, {i, "."}]) || Module <- Modules];
main(["encode", Folder, Values, Out]) ->
    true = code:add_patha(Folder),
    {ok, Terms} = file:consult(Values),
    ok = file:write_file(Out, [[line(fun() -> encoded(Module, Type, Value) end), $\n] || {Module, Type, Value} <- Terms]);
main(["recode", Folder, Lines, Out]) ->
    true = code:add_patha(Folder),
    {ok, Text} = file:read_file(Lines),
    Split = [binary:split(Line, <<" ">>, [global]) || Line <- binary:split(Text, <<"\n">>, [global, trim_all])],
    ok = file:write_file(Out, [[line(fun() -> recoded(Words) end), $\n] || Words <- Split]).

%% Replaces the function of asn1ct's in memory by one that changes nothing. The code is kept beside the modules' folders.
hoist_nothing() ->
    File = "../asn1ct_imm.code",
    Code = case file:read_file(File) of
        {ok, Kept} -> Kept;
        _ ->
            {ok, {_, [{abstract_code, {_, Forms}}]}} = beam_lib:chunks(code:which(asn1ct_imm), [abstract_code]),
            {ok, asn1ct_imm, New} = compile:forms([unhoisted(Form) || Form <- Forms], [no_copt, no_ssa_opt, no_type_opt]),
            ok = file:write_file(File, New),
            New
    end,
    code:unstick_mod(asn1ct_imm),
    {module, asn1ct_imm} = code:load_binary(asn1ct_imm, "asn1ct_imm", Code).

unhoisted({function, Line, enc_opt_hoist_align, 1, _}) ->
    {function, Line, enc_opt_hoist_align, 1, [{clause, Line, [{var, Line, 'Imm'}], [], [{var, Line, 'Imm'}]}]};
unhoisted(Form) ->
    Form.

recoded([Name, TypeName, Digits]) ->
    {Module, Type} = {binary_to_atom(Name), binary_to_atom(TypeName)},
    encoded(Module, Type, did(read, fun() -> Module:decode(Type, binary:decode_hex(Digits)) end)).

encoded(Module, Type, Value) ->
    string:lowercase(binary:encode_hex(octets(Module, Type, Value))).

octets(Module, Type, Value) ->
    Plain = plain(Value),
    did(write, fun() -> Module:encode(Type, Plain) end).

%% A value with octets in place of those values that octets contain.
plain({contained, Module, Type, Value}) -> octets(Module, Type, Value);
plain(Value) when is_tuple(Value) -> list_to_tuple(plain(tuple_to_list(Value)));
plain([First | Others]) -> [plain(First) | plain(Others)];
plain(Value) -> Value.

%% What comes of a call, or what it refuses with its name in front.
did(What, Call) ->
    try Call() of
        {ok, Made} -> Made;
        {error, Why} -> throw({What, Why})
    catch
        error:Why -> throw({What, Why})
    end.

line(Make) ->
    try Make()
    catch
        throw:{What, Why} -> [C || C <- lists:flatten(io_lib:format("! ~s ~0P", [What, Why, 12])), C >= 32, C < 127]
    end.
