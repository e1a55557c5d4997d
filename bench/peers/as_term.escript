#!/usr/bin/env escript
%% as_term.escript FILE: prints each certificate of a file, a line of base64 each, as a term, by Erlang's public_key.
main([File]) ->
    {ok, Text} = file:read_file(File),
    lists:foreach(
        fun(Line) ->
            Certificate = public_key:pkix_decode_cert(base64:decode(Line), otp),
            io:put_chars(io_lib:print(Certificate)), io:nl()
        end,
        [Line || Line <- binary:split(Text, <<"\n">>, [global]), Line =/= <<>>]).
