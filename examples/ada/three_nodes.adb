--  Three nodes and a task in one process, over byte arrays: one call of a protected object's operation, a
--  stop of node 2, and its restart from its bytes. It reads decks/a_node_restarts_from_its_bytes.deck on
--  standard input, takes its declarations, does what its script says, and prints what the deck prints.

with Ada.Text_IO;
with Cluster;
with Tank;

procedure Three_Nodes is
   Level : Tank.Value;
begin
   Cluster.Open;
   Tank.Fill (7, Level);
   Ada.Text_IO.Put_Line ("reply writer 1 value" & Level'Image);
   Cluster.Restart (2);
   Cluster.Show;
   Cluster.Close;
end Three_Nodes;
