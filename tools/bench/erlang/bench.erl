%% Reads lines `OPERATION KIND COUNT FILE` to their end, and answers each by a line. FILE has a line of hexadecimal: the value
%% that it spells is encoded (`enc`) or its octets decoded (`dec`) COUNT times, and the answer is the milliseconds of processor
%% time and a checksum. The operation `check` answers the canonical octets. Which variant it is says the module 'Bench' on
%% the path.
-module(bench).
-export([main/0]).

main() ->
    io:setopts([binary]),
    answer_lines(),
    halt().

answer_lines() ->
    case io:get_line("") of
        eof ->
            ok;
        Line ->
            [Operation, Kind, Count, File] = string:lexemes(Line, " \n"),
            {ok, Digits} = file:read_file(File),
            Octets = binary:decode_hex(string:trim(Digits)),
            answer(Operation, type(Kind), binary_to_integer(Count), Octets),
            answer_lines()
    end.

answer(<<"check">>, Type, _, Octets) ->
    {ok, Value} = decoded(Type, Octets),
    {ok, Canonical} = encoded(Type, Value),
    io:put_chars([string:lowercase(binary:encode_hex(Canonical)), $\n]);
answer(<<"enc">>, Type, Times, Octets) ->
    {ok, Value} = decoded(Type, Octets),
    timed(fun() -> encode(Type, Value, Times, 0) end);
answer(<<"dec">>, Type, Times, Octets) ->
    timed(fun() -> decode(Type, Octets, Times, 0) end).

%% In a process with a heap that begins large, as that of a server's worker.
timed(Work) ->
    Parent = self(),
    spawn_opt(
        fun() ->
            {Start, _} = statistics(runtime),
            Sum = Work(),
            {End, _} = statistics(runtime),
            Parent ! {End - Start, Sum}
        end,
        [{min_heap_size, 1000000}]
    ),
    receive
        {Milliseconds, Sum} -> io:format("~b ~b~n", [Milliseconds, Sum])
    end.

type(<<"four">>) -> 'Four';
type(<<"integer">>) -> 'Whole';
type(<<"behind1k">>) -> 'Behind';
type(<<"behind1m">>) -> 'Behind';
type(<<"visible1k">>) -> 'Visible';
type(<<"optional">>) -> 'Report';
type(<<"list">>) -> 'Fours';
type(<<"group">>) -> 'Outer';
type(<<"choice">>) -> 'Alt';
type(<<"cam">>) -> {'CAM-PDU-Descriptions', 'CAM'};
type(<<"areas">>) -> {'NGAP-IEs', 'SupportedTAList'};
type(_) -> 'Octets'.

%% A type is one of Bench, or a module and its type.
decoded({Module, Type}, Octets) -> Module:decode(Type, Octets);
decoded(Type, Octets) -> 'Bench':decode(Type, Octets).

encoded({Module, Type}, Value) -> Module:encode(Type, Value);
encoded(Type, Value) -> 'Bench':encode(Type, Value).

encode(_, _, 0, Sum) ->
    Sum;
encode(Type, Value, Times, Sum) ->
    {ok, Octets} = encoded(Type, Value),
    encode(Type, Value, Times - 1, (Sum + byte_size(Octets)) band 16#ffffffff).

decode(_, _, 0, Sum) ->
    Sum;
decode(Type, Octets, Times, Sum) ->
    {ok, Value} = decoded(Type, Octets),
    decode(Type, Octets, Times - 1, (Sum + digest(Value)) band 16#ffffffff).

digest(Number) when is_integer(Number) -> Number band 255;
digest(Octets) when is_binary(Octets) -> byte_size(Octets);
digest(Record) when is_tuple(Record) -> tuple_size(Record);
digest(List) when is_list(List) -> length(List).
