--  The first object of a list is freed, and the Finalize of each frees the next one (RM 7.6.1, 13.11.2).
with Ada.Finalization; use Ada.Finalization;
with Ada.Text_IO;      use Ada.Text_IO;
with Ada.Unchecked_Deallocation;

procedure List is
begin
   declare
      type Node;
      type Link is access Node;

      type Node is new Limited_Controlled with record
         N    : Integer := 0;
         Next : Link;
      end record;

      overriding procedure Finalize (X : in out Node);

      procedure Free is new Ada.Unchecked_Deallocation (Node, Link);

      procedure Finalize (X : in out Node) is
      begin
         Put_Line ("N" & Integer'Image (X.N));
         Free (X.Next);
      end Finalize;

      A, B : Link;
   begin
      for I in 1 .. 3 loop
         B := new Node;
         B.N := I;
         B.Next := A;
         A := B;
      end loop;
      Free (A);
      Put_Line (Boolean'Image (A = null));
   end;
end List;
