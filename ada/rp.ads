--  What Ada calls of the static library crates/rp_c/out/librp_c.a: the binding of include/rp.h.
--
--  Bytes in, bytes out: no call keeps an address that it is given, none starts a task or reads a file.
--  Two tasks may be in two calls at once, but not with one handle.
--
--  A null address is refused by Null_Pointer, and nothing has changed; where its count is 0 it may be null.
--  The body looks for that before it calls the library.
--
--  What a caller owes, for every call:
--  * An address is that of the first byte of an array of at least as many bytes as are passed with it.
--  * An array that is written is used by nobody else during the call, and overlaps no other argument.
--  * No byte of a handle (Node, Task_Stub) is changed. It may pass to another task between two calls, if
--    that task sees what the first one wrote (a protected object, a rendezvous). The library keeps nothing
--    but what handles keep, and nothing of a task of Ada.
--  * No call is made from a signal handler.

with Interfaces;
with Interfaces.C;
with System;

package RP is
   pragma Preelaborate;

   subtype Byte is Interfaces.Unsigned_8;
   type Bytes is array (Positive range <>) of aliased Byte
     with Convention => C;

   --  How a call ends. The numbers below 64 are those of the faults that the program prints.

   subtype Status is Interfaces.Unsigned_8;

   Done          : constant Status := 0;
   Out_Of_Memory : constant Status := 1;   --  there was no memory for the call; nothing has changed
   Bad_Packet    : constant Status := 4;   --  the bytes are no packet
   Ballots_Spent : constant Status := 6;   --  the node has no ballot left
   Log_Full      : constant Status := 7;   --  a lead is at the end of the log: its position, or one of its
                                           --  range, is above it; or it has none, and at most 64 positions
                                           --  are left, none of them free
   Task_Busy     : constant Status := 9;   --  the task's last call has no reply yet
   Numbers_Spent : constant Status := 10;  --  the task made its last call
   Bad_Deck      : constant Status := 11;  --  the deck is bad
   Bad_Config    : constant Status := 12;  --  the deck has no such node, or no deck has such a task
   Io            : constant Status := 13;  --  a deck of more than 1_048_576 bytes; nothing has changed
   Short_Answer  : constant Status := 64;  --  the answer is longer than its array; nothing but its length
                                           --  is written
   Bad_Request   : constant Status := 65;  --  the bytes are no request; nothing has changed
   No_Objects    : constant Status := 66;  --  the deck has such a node, but declares a tally, and no objects
   Long_Answer   : constant Status := 67;  --  the step was made, and its answer is longer than the array
   Wrong_Handle  : constant Status := 68;  --  the handle is closed, or of the other kind; nothing has
                                           --  changed
   Null_Pointer  : constant Status := 69;  --  an address is null; nothing has changed
   Too_Far       : constant Status := 70;  --  a lead is in the log, but 64 or more above the first
                                           --  unlearned position: lead at that one, or wait for it;
                                           --  nothing has changed
   Wrong_Device  : constant Status := 71;  --  the device begins with no header, or with another node's or
                                           --  deck's; nothing has changed
   Not_Ended     : constant Status := 72;  --  positions of the log are left: there is no next deck yet;
                                           --  nothing has changed
   At_Work       : constant Status := 73;  --  the log has ended, and a call waits or a timing event is set:
                                           --  there is no next deck; nothing has changed

   --  Why bytes are no packet. Exactly one of these is so of bytes that are none.

   subtype Packet_Reason is Interfaces.Unsigned_8;

   Too_Short       : constant Packet_Reason := 1;  --  right fields, then fewer bytes than the next has
   Too_Long        : constant Packet_Reason := 2;  --  a packet, and then one byte or more
   Unknown_Version : constant Packet_Reason := 3;  --  the first byte is no known version
   Unknown_Kind    : constant Packet_Reason := 4;  --  the second byte is no known kind
   Wrong_Field     : constant Packet_Reason := 5;  --  right fields, then one that breaks its rule

   function Packet_Length
     (Text   : System.Address;
      Count  : Interfaces.C.size_t;
      Length : in out Interfaces.C.size_t) return Status;
   --  Writes into Length how many bytes the packet has that the bytes begin with; any bytes may follow
   --  it. Bad_Packet: they begin with none, and Length is as it was. It takes no memory.

   function Packet_Check
     (Text   : System.Address;
      Count  : Interfaces.C.size_t;
      Reason : in out Packet_Reason) return Status;
   --  Whether all of the bytes are one packet. Bad_Packet: they are not, and Reason says why.
   --  Out_Of_Memory only for a report to an audit or a promise for a range. Otherwise Reason is as it
   --  was.

   function Run_Deck
     (Deck   : System.Address;
      Count  : Interfaces.C.size_t;
      Traced : Interfaces.C.C_bool;
      Answer : System.Address;
      Size   : Interfaces.C.size_t;
      Used   : in out Interfaces.C.size_t) return Status;
   --  Runs the script of a deck, as `rp_console script` does, and with Traced as `script --trace`.
   --  Done: the first Used bytes of Answer are what the program prints on standard output.
   --  Bad_Deck: the first Used bytes of Answer are the line that says where and why the deck is bad.
   --  Short_Answer: the answer has Used bytes, more than Size, and Answer is as it was. Call again with
   --  an array of Used bytes: the same deck has the same answer.
   --  Out_Of_Memory, Io: Answer and Used are as they were.

   --  Nodes and tasks by handle
   --
   --  Nodes agree, and replies are those of one order, if their callers keep three rules (docs/C.md, proved):
   --  1. A device is given what steps give for it, in order, and a packet of a step is handed on only after
   --     all that the node's steps gave up to that step is synced: else a node that stops forgets what it
   --     said, and two actions may be decided at one position. Several steps may share one sync.
   --  2. A node or a task receives packets that nodes and tasks of the same deck handed on, byte for byte,
   --     early, late, again or never: a packet that nobody sent may tell of a vote that nobody cast.
   --  3. A node has one open handle at a time, opened over its own device, and a task is opened once: two
   --     handles of one node vote twice, and a task that counts from 1 again gets the last old reply, or
   --     none for ever.
   --  None of them can be left out (docs/C.md, proved): for each there are callers who break it alone, and
   --  two nodes that have applied different actions then.
   --
   --  The caller keeps the handle. The node or the task that it keeps is the library's, from Open until
   --  the handle is closed or opened again. A handle that is never closed leaks it.

   type Node is limited private;
   type Task_Stub is limited private;

   type Lengths is record
      Stored : Interfaces.C.size_t := 0;  --  how many of the answer's first bytes go to the device
      Used   : Interfaces.C.size_t := 0;  --  how many bytes it has, or, where it does not fit, needs
   end record
     with Convention => C;

   --  The parties of a packet, by its fourth byte, which says to whom it is: node k is k, task t is
   --  Task_Party + t.

   Task_Party  : constant Byte := 16;
   Audit_Party : constant Byte := 32;

   --  A node, which runs over a copy of its device
   --
   --  The caller keeps the device, a run of bytes that survives a stop. What the caller owes:
   --  * The answer of a step is first the bytes of its record, Stored of them, and then its packets, one
   --    after another (Node_Step says where each ends, as Packet_Length does). The caller puts the
   --    record at the end of the device and syncs it BEFORE it sends a packet of that answer. A packet
   --    that is sent first may break the agreement: after a stop the node does not know what it said.
   --  * A record that could not be stored: no packet of that answer is sent, and the node is closed. It
   --    is opened again from the bytes that the device has.
   --  * No two handles run over one device at a time.
   --  Packets may be lost, repeated, reordered or delayed by anybody, and they may not be altered.

   Step_Bytes : constant := 8_192;  --  the least size of the array for the answer of a step

   --  Why a line of a deck is bad: docs/DECK.md, "Bad decks", says what each means.

   subtype Deck_Reason is Interfaces.Unsigned_8;

   Nodes_Expected        : constant Deck_Reason := 1;
   Unknown_Word          : constant Deck_Reason := 2;
   Wrong_Number_Of_Words : constant Deck_Reason := 3;
   Bad_Number            : constant Deck_Reason := 4;
   Bad_Name              : constant Deck_Reason := 5;
   Duplicate_Name        : constant Deck_Reason := 6;
   Unknown_Name          : constant Deck_Reason := 7;
   Too_Many              : constant Deck_Reason := 8;
   Bad_Expression        : constant Deck_Reason := 9;
   Task_Expected         : constant Deck_Reason := 10;
   Object_Expected       : constant Deck_Reason := 11;
   End_Expected          : constant Deck_Reason := 12;
   Script_Expected       : constant Deck_Reason := 13;
   Not_In_Live           : constant Deck_Reason := 14;  --  of the program's live mode alone

   --  What a step did not take.

   subtype Dropped_Kind is Interfaces.Unsigned_8;

   Dropped_Nothing : constant Dropped_Kind := 0;
   Dropped_Full    : constant Dropped_Kind := 1;  --  a call, an interrupt or a tick: 32 of them are
                                                  --  pending at the node
   Dropped_Foreign : constant Dropped_Kind := 2;  --  a packet for another node, from a node or for a
                                                  --  position that the deck does not have, or in a ballot
                                                  --  that its sender does not own
   Dropped_Early   : constant Dropped_Kind := 3;  --  a call that cannot count at this node now: a call of its
                                                  --  task below it did not count here, or its task waits. The
                                                  --  node is as if the packet were lost, and there is nothing
                                                  --  to store and nothing to send; the task sends the call
                                                  --  again later
   Dropped_Stale   : constant Dropped_Kind := 4;  --  an interrupt: this occurrence of its source or a higher
                                                  --  one counted

   --  What is after the whole records of a device.

   subtype Tail_Kind is Interfaces.Unsigned_8;

   No_Tail      : constant Tail_Kind := 0;
   Torn_Tail    : constant Tail_Kind := 1;  --  the beginning of a record, as a stop leaves it: truncate the
                                            --  device to Kept bytes
   Damaged_Tail : constant Tail_Kind := 2;  --  bytes that begin no record, and no stop leaves: records after
                                            --  them would be lost by a truncation. Close the node, and do
                                            --  not use the device

   --  Records have no checksum: a bit that is changed within one may make another record of it, and the
   --  device opens whole. What is found is a record that is none. A caller whose device may change bits
   --  keeps a checksum of its own around what a step gives, and opens a node only over bytes that pass it.

   type Found is record
      Records : Interfaces.C.size_t := 0;     --  how many records the device holds
      Kept    : Interfaces.C.size_t := 0;     --  how many bytes they have
      Tail    : Tail_Kind := No_Tail;         --  what is after them
      Reason  : Deck_Reason := 0;             --  why a bad deck is bad; else 0
      Line    : Interfaces.Unsigned_32 := 0;  --  the first bad line of a bad deck, from 1; else 0
   end record
     with Convention => C;

   --  What a node's answer has, and what the last step that it made gave besides.

   type Step_Lengths is record
      Stored  : Interfaces.C.size_t := 0;  --  how many of the answer's first bytes go to the device
      Used    : Interfaces.C.size_t := 0;  --  how many bytes it has, or, where it does not fit, needs
      Packets : Interfaces.C.size_t := 0;  --  how many packets the last step sent
      Dropped : Dropped_Kind := 0;         --  what the last step did not take
   end record
     with Convention => C;

   type Ends is array (Positive range <>) of aliased Interfaces.C.size_t
     with Convention => C;

   --  The requests to a node, by their first byte; the operands follow, numbers in big-endian order.

   Receive     : constant Byte := 1;   --  a step: a packet came. The packet, all of it
   Lead        : constant Byte := 2;   --  a step: the node is to lead. The position (2 bytes), or nothing:
                                       --  the least free
   Interrupt   : constant Byte := 3;   --  a step: an interrupt. Its source, 1 to 8 (1), and which
                                       --  occurrence, from 1 (4)
   Tick        : constant Byte := 4;   --  a step: the clock has this time (4)
   Report      : constant Byte := 5;   --  a step: a report to the audit. The first position (2)
   Lead_Range  : constant Byte := 6;   --  a step: the node is to lead at a range. Its first position (2),
                                       --  its length, 1 to 64 (1)
   Ask         : constant Byte := 7;   --  a step: the node asks another one for the positions that it has
                                       --  not learned, of the 64 from its first unlearned one on: a packet
                                       --  for each, and no record. The node that is asked (1); Bad_Config
                                       --  if that is no node of the deck, or the node itself
   Applied     : constant Byte := 16;  --  a question: how many actions are applied. 4 bytes
   Image       : constant Byte := 17;  --  a question: the lines that `show` prints of the objects and the
                                       --  clock
   Last_Answer : constant Byte := 18;  --  a question: the answer of the last step that was made, again
   Left        : constant Byte := 19;  --  a question: how many positions of the log are not applied. 4 bytes
   Pending     : constant Byte := 20;  --  a question: how many calls, interrupts and ticks wait for a lead:
                                       --  they did not count yet, and no proposal that the node runs has
                                       --  them as its own action. 4 bytes
   Counted     : constant Byte := 21;  --  a question: the number of the last call of a task that counted at
                                       --  this node, 0 if none did. The task, 1 to 8 (1). 4 bytes
   Occurred    : constant Byte := 22;  --  a question: the last occurrence of an interrupt's source that counted at
                                       --  this node, 0 if none did. The source, 1 to 8 (1). 4 bytes

   function Node_Open
     (Deck   : System.Address;
      Count  : Interfaces.C.size_t;
      Number : Byte;
      Device : System.Address;
      Held   : Interfaces.C.size_t;
      Handle : in out Node;
      What   : in out Found) return Status;
   --  Opens this node of the deck over the Held bytes of its device, which are copied; the deck's script
   --  is not run.
   --  Done: the handle keeps the node, and what it kept before is closed; What says what the device
   --  holds. The caller truncates its device to What.Kept bytes, and syncs it, before the first step,
   --  unless What.Tail is Damaged_Tail.
   --  Bad_Deck: What.Line and What.Reason say where and why, and nothing else has changed.
   --  No_Objects, Bad_Config, Io, Out_Of_Memory: nothing has changed.

   Header_Bytes : constant := 40;  --  how many bytes the header of a device has

   function Device_Header
     (Deck   : System.Address;
      Count  : Interfaces.C.size_t;
      Number : Byte;
      Header : System.Address;
      Size   : Interfaces.C.size_t) return Status;
   --  Puts the header of the device of this node of the deck into the first Header_Bytes bytes of Header:
   --  the letters RPD, 1, the node, how many nodes and positions (2 bytes) the deck has, and the SHA-256
   --  digest of the deck's text up to the first line that begins with `script` or blanks and that. The caller
   --  puts it at the front of a fresh device, and syncs it, before the first step. Nodes of one
   --  installation may tell each other's packets from those of others by the digest, which the caller then
   --  puts around them.
   --  Short_Answer: Size is less than Header_Bytes. Otherwise as Node_Open; nothing has changed.

   function Device_Open
     (Deck   : System.Address;
      Count  : Interfaces.C.size_t;
      Number : Byte;
      Device : System.Address;
      Held   : Interfaces.C.size_t;
      Handle : in out Node;
      What   : in out Found) return Status;
   --  As Node_Open, over a device that begins with this node's header. What.Kept counts the bytes after the
   --  header alone: the caller truncates its device to Header_Bytes + What.Kept bytes.
   --  Wrong_Device: the device begins with no header, or with that of another node or another deck.

   function Node_Call
     (Handle  : in out Node;
      Request : System.Address;
      Count   : Interfaces.C.size_t;
      Answer  : System.Address;
      Size    : Interfaces.C.size_t;
      Length  : in out Lengths) return Status;
   --  Answers a request to a node.
   --  Done: the first Length.Used bytes of Answer are the answer, and its first Length.Stored bytes go to
   --  the device.
   --  Short_Answer: the array has fewer than Length.Used bytes. A step needs Step_Bytes and is not made.
   --  Long_Answer: the step was made, its answer has Length.Used bytes, and Answer is as it was:
   --  Last_Answer gives it into a longer array. No step is known to need that.
   --  Wrong_Handle, Bad_Request, Bad_Packet, Bad_Config, Ballots_Spent, Log_Full, Too_Far, Out_Of_Memory:
   --  nothing has changed.

   function Node_Step
     (Handle  : in out Node;
      Request : System.Address;
      Count   : Interfaces.C.size_t;
      Answer  : System.Address;
      Size    : Interfaces.C.size_t;
      Places  : System.Address;
      Most    : Interfaces.C.size_t;
      Length  : in out Step_Lengths) return Status;
   --  The same, with where the packets end. Done: number K, from 1, of Places, an array Ends of Most
   --  numbers, is where packet K of the last step ends, counted from the first byte of its packets, for
   --  each K up to Length.Packets and Most; Length.Dropped says what that step did not take. After a
   --  question they are those of the step before. Otherwise nothing is written but Length.Used, as by
   --  Node_Call.

   function Node_Receive
     (Handle  : in out Node;
      Packet  : System.Address;
      Count   : Interfaces.C.size_t;
      Answer  : System.Address;
      Size    : Interfaces.C.size_t;
      Places  : System.Address;
      Most    : Interfaces.C.size_t;
      Length  : in out Step_Lengths) return Status;
   --  As Node_Step of the request Receive, by the Count bytes of the packet alone, which are read where they
   --  are.

   --  How long a node has waited: of one node, which changes it by Node_Advise alone; as declared before the
   --  first one, and after the node is opened again.

   type Patience is record
      Applied : Interfaces.Unsigned_32 := 0;  --  how many actions were applied when the wait began
      Tries   : Interfaces.Unsigned_32 := 0;  --  how often it was advised to lead or to ask at the end of a
                                              --  wait since then
      Quiet   : Interfaces.Unsigned_64 := 0;  --  how many quiet turns there were since the last advice to
                                              --  lead or to ask
      Led     : Interfaces.Unsigned_32 := 0;  --  the last position at which it was advised to lead on since
                                              --  then, or 0
      Asked   : Interfaces.Unsigned_32 := 0;  --  one more than how many were applied when it was last advised
                                              --  to ask while it was idle, or 0
      Idle    : Interfaces.Unsigned_64 := 0;  --  how many quiet turns it was idle since that
   end record
     with Convention => C;

   --  What a node is to do.

   subtype Advice_Kind is Interfaces.Unsigned_8;

   Advice_Nothing : constant Advice_Kind := 0;
   Advice_Lead    : constant Advice_Kind := 1;  --  lead at Position: the first that is not applied, or where
                                                --  the node leads on
   Advice_Ask     : constant Advice_Kind := 2;  --  ask another node, each time the next one, for the positions
                                                --  that this one misses

   type Advice is record
      Kind     : Advice_Kind := Advice_Nothing;
      Position : Interfaces.Unsigned_16 := 0;  --  where it is to lead; otherwise 0
   end record
     with Convention => C;

   function Node_Advise
     (Handle : in out Node;
      Wait   : in out Patience;
      Turns  : Interfaces.Unsigned_64;
      What   : in out Advice) return Status
     with Import, Convention => C, External_Name => "rp_node_advise";
   --  What the node is to do after Turns more quiet turns (docs/C.md, "Who leads"). A turn is a turn of the
   --  caller's loop, or a millisecond. A node that led last leads on at once, and leads again for what is
   --  pending after 4 turns in which nothing was applied: so a decision takes less than 4 turns. Any other,
   --  node K, waits 32 K turns before it leads. Both wait from the third try on twice as long as before, up to
   --  64 times as long. A node that has nothing to do asks 32 K turns after it was opened, and then 64 times as
   --  seldom. In each turn of its loop the caller asks again, with 0
   --  turns, until the advice is Advice_Nothing. It changes the patience and nothing of the node.
   --  Wrong_Handle: nothing has changed.

   function Next_Deck
     (Handle : in out Node;
      Deck   : System.Address;
      Count  : Interfaces.C.size_t;
      Answer : System.Address;
      Size   : Interfaces.C.size_t;
      Used   : in out Interfaces.C.size_t) return Status;
   --  Puts the text of the next deck of a station into Answer, and its length into Used, by a node of this deck
   --  whose log has ended (docs/C.md, "The end of the log"). It is the deck's text up to `script`, each component
   --  with what it is now as its first value, after a comment with the digest of the deck. The station goes on
   --  with it over fresh devices: clocks start at 0 again, and calls and interrupts at number 1. The node stays
   --  as it is.
   --  Short_Answer: the text has Used bytes, more than Size; nothing else has changed.
   --  At_Work: a call waits, a timing event is set, or the deck is not the node's.
   --  Not_Ended, At_Work, Wrong_Handle, Out_Of_Memory, and Io if the deck has more than 1_048_576 bytes: nothing
   --  has changed.

   procedure Node_Close (Handle : in out Node)
     with Import, Convention => C, External_Name => "rp_handle_close";
   --  Stops a node: the handle is closed, and what the node knew besides its device is gone. A closed
   --  handle stays closed.

   --  A task's stub
   --
   --  It makes one call at a time, which has a number, and sends it again, also to another node, until its
   --  reply came. What the caller owes: a task that stopped makes no call under the same number again,
   --  since the nodes would take it for the old call. So a task's stub lives as long as its nodes'
   --  devices, or goes on after the calls that it made (Task_Open_After).

   Task_Bytes : constant := 40;  --  the least size of the array for the answer of a task

   --  The requests to a task, by their first byte; the operands follow, numbers in big-endian order.

   Make_Call   : constant Byte := 1;  --  a new call. The node, the object, the kind of operation and its
                                      --  index (1 byte each), the argument (8). The answer is the packet
                                      --  to send
   Send_Again  : constant Byte := 2;  --  the call that has no reply yet, again. The node (1). The answer is
                                      --  the packet to send, or nothing if there is no such call
   Take_Packet : constant Byte := 3;  --  a packet came. The packet, all of it. The answer is the reply to
                                      --  the call, or nothing if the packet is none

   --  The kinds of operation, each with an index from 1 in the order of the deck; objects are numbered so
   --  too.

   A_Function   : constant Byte := 1;
   A_Procedure  : constant Byte := 2;
   An_Entry     : constant Byte := 3;
   Set_Timer    : constant Byte := 4;
   Cancel_Timer : constant Byte := 5;

   --  A reply, by its first byte.

   Value_Reply       : constant Byte := 1;  --  a whole number: 8 bytes, negative in two's complement
   Truth_Reply       : constant Byte := 2;  --  a truth: 1 byte, 0 or 1
   Constraint_Reply  : constant Byte := 3;  --  the operation raised Constraint_Error
   Program_Reply     : constant Byte := 4;  --  the operation raised Program_Error
   No_Such_Operation : constant Byte := 5;  --  the object has no such operation

   function Task_Open (Number : Byte; Handle : in out Task_Stub) return Status
     with Import, Convention => C, External_Name => "rp_task_open";
   --  Opens the stub of this task, 1 to 8, which has made no call; what the handle kept before is closed.
   --  Bad_Config, Out_Of_Memory: nothing has changed.

   function Task_Call
     (Handle  : in out Task_Stub;
      Request : System.Address;
      Count   : Interfaces.C.size_t;
      Answer  : System.Address;
      Size    : Interfaces.C.size_t;
      Length  : in out Lengths) return Status;
   --  Answers a request to a task. Done: the first Length.Used bytes of Answer are the answer.
   --  Short_Answer: the array has fewer than Task_Bytes bytes; nothing but Length.Used is written.
   --  Wrong_Handle, Bad_Request, Task_Busy, Numbers_Spent, Bad_Packet, Out_Of_Memory: nothing has changed.

   function Task_Open_After
     (Number : Byte;
      Calls  : Interfaces.Unsigned_32;
      Handle : in out Task_Stub) return Status
     with Import, Convention => C, External_Name => "rp_task_open_after";
   --  Opens the stub of this task, which has made this many calls: its next one has number Calls + 1. The
   --  task that stopped may have made that call as well, so its first call here changes nothing and its
   --  reply is not used (docs/C.md, "A task that restarts"). Otherwise as Task_Open.

   function Task_Receive
     (Handle  : in out Task_Stub;
      Packet  : System.Address;
      Count   : Interfaces.C.size_t;
      Answer  : System.Address;
      Size    : Interfaces.C.size_t;
      Length  : in out Lengths) return Status;
   --  As Task_Call of the request Take_Packet, by the Count bytes of the packet alone, which are read where
   --  they are.

   procedure Task_Close (Handle : in out Task_Stub)
     with Import, Convention => C, External_Name => "rp_handle_close";
   --  Gives a task's stub back: the handle is closed. A closed handle stays closed.

   --  Typed calls
   --
   --  A request each, by its operands; the bytes of its request are put together in the body, and its answer
   --  and its status are those of Node_Step, Node_Call or Task_Call. An operand that no request has is
   --  refused by Bad_Request, and nothing has changed. Answer has at least Step_Bytes bytes.

   function Node_Take
     (Handle : in out Node;
      Packet : Bytes;
      Answer : in out Bytes;
      Places : in out Ends;
      Length : in out Step_Lengths) return Status;
   --  A packet came.

   function Node_Lead
     (Handle : in out Node;
      Answer : in out Bytes;
      Places : in out Ends;
      Length : in out Step_Lengths) return Status;
   --  The node is to lead at the least free position.

   function Node_Lead_At
     (Handle   : in out Node;
      Position : Interfaces.Unsigned_16;
      Answer   : in out Bytes;
      Places   : in out Ends;
      Length   : in out Step_Lengths) return Status;
   --  The node is to lead at this position.

   function Node_Lead_Range
     (Handle : in out Node;
      First  : Interfaces.Unsigned_16;
      Count  : Byte;
      Answer : in out Bytes;
      Places : in out Ends;
      Length : in out Step_Lengths) return Status;
   --  The node is to lead at Count positions, 1 to 64, from First on.

   function Node_Ask
     (Handle : in out Node;
      Whom   : Byte;
      Answer : in out Bytes;
      Places : in out Ends;
      Length : in out Step_Lengths) return Status;
   --  The node is to ask another one, Whom, for the positions that it misses.

   function Node_Interrupt
     (Handle     : in out Node;
      Source     : Byte;
      Occurrence : Interfaces.Unsigned_32;
      Answer     : in out Bytes;
      Places     : in out Ends;
      Length     : in out Step_Lengths) return Status;
   --  An interrupt of a source, 1 to 8, by the number of its occurrence, from 1.

   function Node_Tick
     (Handle : in out Node;
      Now    : Interfaces.Unsigned_32;
      Answer : in out Bytes;
      Places : in out Ends;
      Length : in out Step_Lengths) return Status;
   --  The clock has this time.

   function Node_Report
     (Handle : in out Node;
      First  : Interfaces.Unsigned_16;
      Answer : in out Bytes;
      Places : in out Ends;
      Length : in out Step_Lengths) return Status;
   --  A report to the audit, from the position First on.

   function Node_Applied (Handle : in out Node; Number : in out Interfaces.Unsigned_32) return Status;
   --  How many actions are applied. Number is written by Done alone, here and below.

   function Node_Left (Handle : in out Node; Number : in out Interfaces.Unsigned_32) return Status;
   --  How many positions are not applied yet.

   function Node_Pending (Handle : in out Node; Number : in out Interfaces.Unsigned_32) return Status;
   --  How many pending items wait for a lead.

   function Node_Counted
     (Handle : in out Node;
      Caller : Byte;
      Number : in out Interfaces.Unsigned_32) return Status;
   --  The number of the last call of the task Caller that counted.

   function Node_Occurred
     (Handle : in out Node;
      Source : Byte;
      Number : in out Interfaces.Unsigned_32) return Status;
   --  The last occurrence of an interrupt's source that counted: the next one that counts is above it.

   function Node_Next_Timer
     (Handle : in out Node;
      Answer : in out Bytes;
      Is_Set : in out Boolean;
      Time   : in out Interfaces.Integer_64) return Status;
   --  The least Time for which a timing event is set at the node, and whether there is one. It is read off
   --  the node's image, for which Answer has the space: Short_Answer if the image is longer.

   --  The packet of a task's call, to send: the first Count bytes of Text, none if Count is 0.

   type Call_Packet is record
      Text  : Bytes (1 .. Task_Bytes) := (others => 0);
      Count : Natural := 0;
   end record;

   function Task_Operation
     (Handle   : in out Task_Stub;
      Through  : Byte;
      Object   : Byte;
      Kind     : Byte;
      Index    : Byte;
      Argument : Interfaces.Integer_64;
      Packet   : in out Call_Packet) return Status;
   --  A call through a node of an operation of an object: A_Function, A_Procedure, An_Entry, Set_Timer or
   --  Cancel_Timer, by its index.

   function Task_Again
     (Handle  : in out Task_Stub;
      Through : Byte;
      Packet  : in out Call_Packet) return Status;
   --  The call that has no reply yet, again, through a node.

   --  The reply to a task's call: of which kind it is, or 0 if a packet was none; and its value, a Boolean
   --  as 0 or 1.

   type Call_Reply is record
      Kind  : Byte := 0;
      Value : Interfaces.Integer_64 := 0;
   end record;

   function Task_Take
     (Handle : in out Task_Stub;
      Packet : Bytes;
      Reply  : in out Call_Reply) return Status;
   --  A packet came: the reply in it, if it is one to the task's call.

private

   --  A handle that is not opened yet is closed.

   type Node is limited record
      Open     : Interfaces.C.C_bool := Interfaces.C.C_bool (False);
      At_Place : System.Address := System.Null_Address;
   end record
     with Convention => C;

   type Task_Stub is limited record
      Open     : Interfaces.C.C_bool := Interfaces.C.C_bool (False);
      At_Place : System.Address := System.Null_Address;
   end record
     with Convention => C;

end RP;
