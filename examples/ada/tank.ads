--  The protected object `tank` of decks/a_node_restarts_from_its_bytes.deck: it looks like
--
--     protected Tank is
--        procedure Fill (Amount : Value; Level : out Value);
--     end Tank;
--
--  and each call of it is one call of the replicated object.

with Cluster;

package Tank is

   subtype Value is Cluster.Value;

   procedure Fill (Amount : Value; Level : out Value);

end Tank;
