%% Names are any terms. In tables a name is its bytes, and in the directory a grain: these bytes, or their digest where a grain has no room.
%% (Terms themselves would be no keys: 0.0 and -0.0 are equal to a table, and not to the directory.)
-module(grain_term).
-export([key/1, grain/1]).

-define(ROOM, 96). % of a grain's key of 128 characters, in base64

-spec key(term()) -> binary().
key(Name) -> term_to_binary(Name, [deterministic, {minor_version, 2}]).

-spec grain(Key :: binary()) -> binary().
grain(Key) when byte_size(Key) =< ?ROOM -> <<"term/", (base64:encode(Key))/binary>>;
grain(Key) -> <<"hash/", (base64:encode(crypto:hash(sha256, Key)))/binary>>.
