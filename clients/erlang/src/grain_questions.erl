%% Questions to the agent, each with a tag, that wait for their answers. So many are under way at most; others wait in a line that has an end,
%% and so do all while there is no connection. Each process that asks has questions of its own, by a letter in front of its tags.
-module(grain_questions).
-export([new/3, connected/2, ask/3, urge/3, answered/2, sent/1]).
-export_type([questions/0]).

-record(questions, {letter :: char(), window :: pos_integer(), most :: pos_integer(), socket = none :: none | gen_tcp:socket(),
                    next = 0 :: non_neg_integer(), waiting = #{} :: #{binary() => term()},
                    line = queue:new() :: queue:queue({iodata(), term()}), length = 0 :: non_neg_integer(), out = [] :: iodata()}).
-opaque questions() :: #questions{}.

%% A process's questions: how many may be under way, and how many may wait.
-spec new(char(), pos_integer(), pos_integer()) -> questions().
new(Letter, Window, Most) -> #questions{letter = Letter, window = Window, most = Most}.

-spec connected(gen_tcp:socket(), questions()) -> questions().
connected(Socket, Q = #questions{}) -> Q#questions{socket = Socket}.

%% Asks something, for a purpose that comes again with the answer; or too much waits.
-spec ask(iodata(), term(), questions()) -> {ok, questions()} | busy.
ask(_, _, #questions{length = Length, most = Most}) when Length >= Most -> busy;
ask(Words, Purpose, Q) -> {ok, urge(Words, Purpose, Q)}.

%% Asks what may not be left out: the end of something that was granted.
-spec urge(iodata(), term(), questions()) -> questions().
urge(Words, Purpose, Q = #questions{line = Line, length = Length}) ->
    Q#questions{line = queue:in({Words, Purpose}, Line), length = Length + 1}.

%% What an answer is about, by its tag.
-spec answered(binary(), questions()) -> {term(), questions()}.
answered(Tag, Q = #questions{waiting = Waiting}) ->
    {Purpose, Rest} = maps:take(Tag, Waiting),
    {Purpose, Q#questions{waiting = Rest}}.

%% Sends what there is room for. The socket has room for a whole window, so nobody waits here.
-spec sent(questions()) -> questions().
sent(Q = #questions{socket = none}) -> Q;
sent(Q = #questions{length = Length, waiting = Waiting, window = Window}) when Length > 0, map_size(Waiting) < Window -> sent(next(Q));
sent(Q = #questions{out = []}) -> Q;
sent(Q = #questions{out = Out, socket = Socket}) ->
    _ = gen_tcp:send(Socket, lists:reverse(Out)), % where that fails the reader finds the end, and all is fenced
    Q#questions{out = []}.

next(Q = #questions{line = Line, length = Length, waiting = Waiting, next = Next, letter = Letter, out = Out}) ->
    {{value, {Words, Purpose}}, Rest} = queue:out(Line),
    Tag = <<Letter, (integer_to_binary(Next))/binary>>,
    Q#questions{line = Rest, length = Length - 1, next = Next + 1, waiting = Waiting#{Tag => Purpose},
                out = [[Tag, $\s, Words, $\n] | Out]}.
