--  A list that frees itself (RM 13.11.2): the Finalize of each object frees the next one, so one call frees an
--  object and all behind it.
with Ada.Finalization; use Ada.Finalization;
with Ada.Text_IO;      use Ada.Text_IO;
with Ada.Unchecked_Deallocation;

procedure Freed_List is
   type Node;
   type Link is access Node;
   type Node is new Limited_Controlled with record
      Number : Integer := 0;
      Next   : Link;
   end record;

   overriding procedure Finalize (X : in out Node);

   procedure Free is new Ada.Unchecked_Deallocation (Node, Link);

   procedure Finalize (X : in out Node) is
   begin
      Put_Line ("node" & Integer'Image (X.Number));
      Free (X.Next);
   end Finalize;

   First, Before : Link;
begin
   for I in 1 .. 4 loop
      Before := First;
      First := new Node;
      First.Number := I;
      First.Next := Before;
   end loop;
   Free (First.Next.Next);
   Put_Line ("half of it is gone");
   Free (First);
   Put_Line (Boolean'Image (First = null));
end Freed_List;
