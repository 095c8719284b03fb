#!/usr/bin/env escript
%% Prints the octets that Erlang/OTP's compiler gives to a value of an ASN.1 module, in hexadecimal.
%%
%% usage: encode.escript FOLDER (uper|per) MODULE TYPE TERM
%%
%% FOLDER has a file MODULE.asn1 for the module and for each that it imports. The status is 1 where there are no octets.
-mode(compile).

main([Folder, Rules, Module, Type, Text]) ->
    ok = file:set_cwd(Folder),
    Imported = [filename:rootname(It) || It <- filelib:wildcard("*.asn1")],
    [asn1ct:compile(It, [list_to_atom(Rules), {i, "."}]) || It <- Imported],
    true = code:add_patha("."),
    {ok, Tokens, _} = erl_scan:string(Text ++ "."),
    {ok, Forms} = erl_parse:parse_exprs(Tokens),
    {value, Value, _} = erl_eval:exprs(Forms, []),
    case catch (list_to_atom(Module)):encode(list_to_atom(Type), Value) of
        {ok, Octets} -> io:format("~s~n", [string:lowercase(binary:encode_hex(Octets))]);
        _ -> halt(1)
    end.
