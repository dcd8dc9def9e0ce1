#!/usr/bin/env escript
%% Answers lines of a test with Erlang's compiler of ASN.1: an answer is a line that begins with "= ".
%%
%%   compile MODULE                   ok, or refused and why: the text is MODULE.asn1 in the folder, which the argument names
%%   values MODULE TYPE COUNT SEED    hex digits of so many values that it makes and encodes at most
%%   read MODULE TYPE HEX             same, other HEX, rest COUNT, or refused and why: what it decodes and encodes again
-mode(compile).

main([Folder]) ->
    code:add_path(Folder),
    loop(Folder).

loop(Folder) ->
    case io:get_line("") of
        eof -> ok;
        Line ->
            Words = string:lexemes(string:trim(Line), " "),
            io:format("~n= ~ts~n", [answer(Folder, Words)]),
            loop(Folder)
    end.

answer(Folder, ["compile", Name]) ->
    Options = [ber, der, undec_rest, {outdir, Folder}, {i, Folder}],
    case catch asn1ct:compile(filename:join(Folder, Name ++ ".asn1"), Options) of
        ok -> "ok";
        Why -> ["refused ", one_line(Why)]
    end;
answer(Folder, ["values", Name, Type, Count, Seed]) ->
    Numbers = lists:seq(1, list_to_integer(Count)),
    Found = [value(Folder, list_to_atom(Name), list_to_atom(Type), list_to_integer(Seed), It) || It <- Numbers],
    lists:join(" ", lists:usort(lists:append(Found)));
answer(_, ["read", Name, Type | Digits]) ->
    Octets = binary:decode_hex(list_to_binary(lists:append(Digits))),
    read(list_to_atom(Name), list_to_atom(Type), Octets).

%% One value's digits in a list, or an empty list where none is made.
value(Folder, Name, Type, Seed, Number) ->
    rand:seed(exsss, {Seed, Number, erlang:phash2({Name, Type})}),
    case catch asn1ct:value(Name, Type, [Folder]) of
        {ok, Value} ->
            case catch Name:encode(Type, times_of_der(Value)) of
                {ok, Octets} when is_binary(Octets) -> [binary:encode_hex(Octets)];
                _ -> []
            end;
        _ -> []
    end.

%% The two times that asn1ct:value makes are no DER (X.690 11.7, 11.8): they are changed to such as are.
times_of_der("19971002103130.5") -> "19971002103130Z";
times_of_der("97100211-0500") -> "971002160000Z";
times_of_der([Head | Tail]) -> [times_of_der(Head) | times_of_der(Tail)];
times_of_der(Value) when is_tuple(Value) -> list_to_tuple([times_of_der(It) || It <- tuple_to_list(Value)]);
times_of_der(Value) -> Value.

read(Name, Type, Octets) ->
    case catch Name:decode(Type, Octets) of
        {ok, Value, <<>>} -> written(Name, Type, Value, Octets);
        {ok, _, Rest} -> io_lib:format("rest ~b", [byte_size(Rest)]);
        {error, Why} -> ["refused ", one_line(Why)];
        Why -> ["refused ", one_line(Why)]
    end.

written(Name, Type, Value, Octets) ->
    case catch Name:encode(Type, Value) of
        {ok, Octets} -> "same";
        {ok, Other} -> ["other ", binary:encode_hex(Other)];
        Why -> ["refused, not encoded ", one_line(Why)]
    end.

one_line(Why) ->
    Text = io_lib:format("~0P", [Why, 12]),
    re:replace(Text, "\\s+", " ", [global, unicode]).
