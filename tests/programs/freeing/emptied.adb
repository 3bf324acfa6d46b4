--  A list whose objects free the next one ends with its collection. What is freed then is no candidate any more, and
--  what was finalized before is not finalized again: which of the two an object is depends on the order (RM 7.6.1,
--  13.11.2).
with Ada.Finalization; use Ada.Finalization;
with Ada.Text_IO;      use Ada.Text_IO;
with Ada.Unchecked_Deallocation;

procedure Emptied is
begin
   declare
      type Node;
      type Link is access Node;

      type Node is new Limited_Controlled with record
         N    : Integer := 0;
         Next : Link;
      end record;

      overriding procedure Finalize (X : in out Node);

      procedure Free is new Ada.Unchecked_Deallocation (Node, Link);

      procedure Finalize (X : in out Node) is
      begin
         Put_Line ("N" & Integer'Image (X.N));
         Free (X.Next);
      end Finalize;

      A, B : Link;
   begin
      for I in 1 .. 3 loop
         B := new Node;
         B.N := I;
         B.Next := A;
         A := B;
      end loop;
   end;
end Emptied;
