--  A list that nobody frees (RM 7.6.1, 13.11.2): its objects end with their collection, in an order that the language leaves open. Each Finalize
--  frees the next object. Where the newest one is chosen first, it frees all others, which are no candidates then; where the oldest one is,
--  each object that is freed was finalized before, and is not finalized again.
with Ada.Finalization; use Ada.Finalization;
with Ada.Text_IO;      use Ada.Text_IO;
with Ada.Unchecked_Deallocation;

procedure Abandoned_List is
   type Node;
   type Link is access Node;
   type Node is new Limited_Controlled with record
      Number : Integer := 0;
      Next   : Link;
   end record;

   overriding procedure Finalize (X : in out Node);

   procedure Free is new Ada.Unchecked_Deallocation (Node, Link);

   procedure Finalize (X : in out Node) is
   begin
      Put_Line ("node" & Integer'Image (X.Number));
      Free (X.Next);
   end Finalize;

   First, Before : Link;
begin
   for I in 1 .. 3 loop
      Before := First;
      First := new Node;
      First.Number := I;
      First.Next := Before;
   end loop;
end Abandoned_List;
