--  The device of a node: a file, which only grows, and which is synced before anything that it says leaves the node.

with RP;

package Device is

   procedure Make (Deck : RP.Bytes; Number : RP.Byte; Name : String);
   --  Makes the device of a node that never ran: a file with its header. The program ends if there is such a file.

   procedure Open (Deck : RP.Bytes; Number : RP.Byte; Name : String; Node : in out RP.Node);
   --  Opens the node of this number of the deck over the file. The program ends if there is none, or if it is another's
   --  device or a damaged one.

   procedure Append (Bytes : RP.Bytes);
   procedure Sync;
   --  The program ends where the device fails: no packet of what was not synced leaves it.

   procedure Put_Next_Deck (Node : in out RP.Node; Deck : RP.Bytes; Name : String);
   --  Once the log of the node has ended: the deck with which the station goes on over fresh devices (docs/C.md, "The
   --  end of the log"), in the file Name & ".deck", which is there whole or not at all.

end Device;
