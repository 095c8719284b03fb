#!/usr/bin/env escript
%% Reads ASN.1 modules by Erlang/OTP's compiler, and writes what it made of them as JSON.
%%
%% usage: front.escript FOLDER OUT SECONDS WORDS MODULE..
%%
%% FOLDER has a file MODULE.asn1 for each module that is read or imported. OUT, in it, gets one object: for each module its
%% definitions as they were parsed (`parsed`), with the names of the types that they refer to, and as they were checked
%% (`checked`), with parameters, constraints, object sets and tags resolved; `checked` is left out where asn1ct refuses the
%% module, or where its check takes more than SECONDS of a processor or WORDS of memory. What it refuses stands on standard output, each on
%% a line `MODULE.asn1:LINE: REASON`. A record of the compiler is an object whose `_` is its name; the names of its fields are read
%% from the compiler's own code, so that no copy of its header file is kept here. Any other tuple is an object with `t`, its
%% elements. The status is 3 where there is no compiler.
%%
%% asn1ct makes one range of a size that has several, and a list of each number of a union, and ends at a fault of its own.
%% Functions of its check are replaced in memory: here it keeps the ranges, and goes on behind a definition where it ended.
%% It ends behind its check (`abs`), when it has saved what it made, and doesn't list it. A folder that the environment's
%% ASN1_KEPT names keeps the code with these.
-mode(compile).

main([Folder, Out, Seconds, Words | Names]) ->
    case code:which(asn1ct_check) of
        non_existing -> halt(3);
        _ -> ok
    end,
    Records = records(forms(asn1ct_check)),
    replace(asn1ct_check, in_check()),
    replace(asn1ct, ["abs_listing(_) -> asn1_db:dbstop(), done."]),
    ok = file:set_cwd(Folder),
    Parsed = [{Name, parsed(Name)} || Name <- Names],
    Limits = {list_to_integer(Seconds), list_to_integer(Words)},
    Endless = endless([{Name, Module} || {Name, Module} <- Parsed, Module =/= refused]),
    Checks = Endless =:= [] andalso lists:all(fun({_, Read}) -> Read =/= refused end, Parsed),
    [say(Name, Line, "a type with parameters that stands in itself has no end there") || {Name, Line, _, _} <- Endless],
    Read = [read(Name, Module, Checks, Limits, Records) || {Name, Module} <- Parsed, Module =/= refused],
    ok = file:write_file(Out, ["{", lists:join(",\n", Read), "}\n"]).

read(Name, Module, Checks, Limits, Records) ->
    Checked = case Checks andalso checked(Name, Limits) of
        {ok, Table} -> [",\n\"checked\": {", lists:join(",\n", [[string(K), ": ", json(V, Records)] || {K, V} <- Table]), "}"];
        _ -> ""
    end,
    [string(Name), ": {\"parsed\": ", json(Module, Records), Checked, "}"].

%% What the compiler parses of a module, or `refused`.
parsed(Name) ->
    File = Name ++ ".asn1",
    case asn1ct_tok:file(File) of
        {error, Why} -> refuse(Name, Why);
        Tokens ->
            case asn1ct_parser2:parse(File, Tokens) of
                {ok, Module} -> Module;
                {error, Why} -> refuse(Name, Why)
            end
    end.

refuse(Name, Errors) when is_list(Errors) ->
    [refuse(Name, Error) || Error <- Errors],
    refused;
refuse(Name, {structured_error, {_, Line}, Module, Why}) ->
    say(Name, Line, Module:format_error(Why));
refuse(Name, Why) ->
    say(Name, 0, io_lib:format("~0p", [Why])).

say(Name, Line, Text) ->
    io:format("~s.asn1:~p: ~s~n", [Name, Line, Text]),
    refused.

%% The types with parameters that stand in themselves, at which the compiler's check doesn't end.
endless(Modules) ->
    Made = [{Name, element(3, One), element(4, One), instances(element(6, One))} ||
        {Name, Module} <- Modules, One <- lists:last(tuple_to_list(Module)), element(1, One) =:= ptypedef],
    [One || {_, _, Type, Named} = One <- Made, lists:member(Type, reached(Named, [], Made))].

reached([], Found, _) -> Found;
reached([Type | Left], Found, Made) ->
    case lists:member(Type, Found) of
        true -> reached(Left, Found, Made);
        false -> reached(lists:append([Named || {_, _, Name, Named} <- Made, Name =:= Type]) ++ Left, [Type | Found], Made)
    end.

%% The types with parameters that are named in a part of a module.
instances({pt, Type, Given}) -> [element(4, Type) | instances(Given)];
instances(Part) when is_tuple(Part) -> instances(tuple_to_list(Part));
instances(Parts) when is_list(Parts) -> lists:append([instances(Part) || Part <- Parts]);
instances(_) -> [].

%% What the compiler's check makes of a module, within limits of time and memory.
checked(Name, {Seconds, Words}) ->
    erlang:system_flag(max_heap_size, #{size => Words, kill => true, error_logger => false}),
    {Pid, Reference} = spawn_monitor(fun() -> exit({done, asn1ct:compile(Name ++ ".asn1", [uper, abs, {i, "."}])}) end),
    ended(Name, Pid, Reference, spent() + Seconds * 1000).

ended(Name, Pid, Reference, Latest) ->
    receive
        {'DOWN', Reference, process, Pid, {done, ok}} -> table(Name);
        {'DOWN', Reference, process, Pid, {done, {error, {internal_error, _}}}} -> say(Name, 0, "asn1ct ends in a fault of its own");
        {'DOWN', Reference, process, Pid, {done, _}} -> refused;
        {'DOWN', Reference, process, Pid, killed} -> say(Name, 0, "asn1ct takes too much memory");
        {'DOWN', Reference, process, Pid, _} -> say(Name, 0, "asn1ct ends in a fault of its own")
    after 500 ->
        case spent() > Latest of
            true ->
                exit(Pid, kill),
                say(Name, 0, "asn1ct takes too long");
            false ->
                ended(Name, Pid, Reference, Latest)
        end
    end.

%% The milliseconds of a processor that were taken so far.
spent() -> element(1, erlang:statistics(runtime)).

table(Name) ->
    {ok, Table} = ets:file2tab(Name ++ ".asn1db"),
    {ok, [{K, V} || {K, V} <- lists:sort(ets:tab2list(Table)), is_tuple(V), tuple_size(V) > 2]}.

forms(Module) ->
    {ok, {_, [{abstract_code, {_, Forms}}]}} = beam_lib:chunks(code:which(Module), [abstract_code]),
    Forms.

%% What stands in place of functions of the compiler's check. That of a definition is called as before, by another name.
in_check() ->
    Faults = [[Name, "(S, Name, Type) -> try ", Name, "_here(S, Name, Type) catch error:_ -> "
        "io:format(\"~s.asn1:~p: it ends here in a fault of its own~n\", [S#state.mname, element(3, Type)]), ok end."]
        || Name <- ["do_checkt", "do_checkv", "do_checkp"]],
    Ranges = [[Name, "(Ranges) -> {ranges, Ranges}."] ||
        Name <- ["size_constraint_collapse", "single_value_collapse", "smart_collapse"]],
    [lists:flatten(Text) || Text <- Faults ++ Ranges].

%% Replaces functions by those of these texts. The former ones are left, with `_here` behind their names.
replace(Module, Texts) ->
    code:unstick_mod(Module),
    {module, Module} = code:load_binary(Module, atom_to_list(Module), kept(os:getenv("ASN1_KEPT"), Module, Texts)).

%% The code with functions replaced, which is kept in a folder, where there is one: to make it takes longer than to read a module.
kept(false, Module, Texts) ->
    replaced(Module, Texts);
kept(Folder, Module, Texts) ->
    File = lists:concat([Folder, "/", Module, ".", erlang:phash2({Module:module_info(md5), Texts}, 1 bsl 32)]),
    case file:read_file(File) of
        {ok, Code} -> Code;
        _ ->
            Code = replaced(Module, Texts),
            New = lists:concat([File, ".", os:getpid()]),
            ok = file:write_file(New, Code),
            ok = file:rename(New, File),
            Code
    end.

replaced(Module, Texts) ->
    New = [function(Text) || Text <- Texts],
    Names = [{Name, Arity} || {function, _, Name, Arity, _} <- New],
    {Before, Behind} = lists:splitwith(fun(Form) -> element(1, Form) =/= function end, forms(Module)),
    Forms = Before ++ New ++ [renamed(Form, Names) || Form <- Behind],
    Quickly = [no_copt, no_ssa_opt, no_type_opt, no_bool_opt, no_share_opt, no_bsm_opt, no_fun_opt, no_recv_opt],
    {ok, Module, Code} = compile:forms(Forms, Quickly),
    Code.

function(Text) ->
    {ok, Tokens, _} = erl_scan:string(Text),
    {ok, Form} = erl_parse:parse_form(Tokens),
    Form.

renamed({function, Line, Name, Arity, Clauses} = Form, Names) ->
    case lists:member({Name, Arity}, Names) of
        true -> {function, Line, list_to_atom(atom_to_list(Name) ++ "_here"), Arity, Clauses};
        false -> Form
    end;
renamed(Form, _) ->
    Form.

%% The fields of the compiler's records, by name and size.
records(Forms) ->
    maps:from_list([{{Name, length(Fields) + 1}, [field(F) || F <- Fields]} || {attribute, _, record, {Name, Fields}} <- Forms]).

field({typed_record_field, Field, _}) -> field(Field);
field({record_field, _, {atom, _, Name}}) -> Name;
field({record_field, _, {atom, _, Name}, _}) -> Name.

json(Value, _) when is_atom(Value) -> string(Value);
json(Value, _) when is_integer(Value) -> integer_to_binary(Value);
json(Value, _) when is_binary(Value) -> [<<"{\"b\": ">>, string(binary_to_list(binary:encode_hex(Value))), <<"}">>];
json(Value, Records) when is_list(Value) -> [<<"[">>, lists:join(<<",">>, [json(V, Records) || V <- Value]), <<"]">>];
json(Value, Records) when is_map(Value) ->
    [<<"{\"m\": ">>, json([[K, V] || {K, V} <- maps:to_list(Value)], Records), <<"}">>];
json(Value, Records) when is_tuple(Value) ->
    case tuple_size(Value) > 0 andalso maps:find({element(1, Value), tuple_size(Value)}, Records) of
        {ok, Names} ->
            Fields = lists:zip(Names, tl(tuple_to_list(Value))),
            More = [[<<", ">>, string(N), <<": ">>, json(V, Records)] || {N, V} <- Fields],
            [<<"{\"_\": ">>, string(element(1, Value)), More, <<"}">>];
        _ ->
            [<<"{\"t\": ">>, json(tuple_to_list(Value), Records), <<"}">>]
    end;
json(Value, _) ->
    string(lists:flatten(io_lib:format("~p", [Value]))).

%% A JSON string, as a binary, which takes less room than its characters.
string(Value) when is_atom(Value) -> string(atom_to_list(Value));
string(Value) -> iolist_to_binary(["\"", [escaped(C) || C <- Value], "\""]).

escaped($") -> "\\\"";
escaped($\\) -> "\\\\";
escaped(C) when C < 32; C > 126 -> io_lib:format("\\u~4.16.0b", [C]);
escaped(C) -> C.
