--  The objects of tank.deck. Callers.Call makes the calls where they are replicated.

with Callers;
with Deck_Objects;

package Objects is new Deck_Objects (Callers.Call);
