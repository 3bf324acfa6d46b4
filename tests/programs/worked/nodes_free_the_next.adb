--  A collection ends, and the Finalize of each object frees the next one: the members that were freed so are not
--  finalized again, and which is chosen first says how many choices there are (RM 7.6.1, 13.11.2).
with Ada.Finalization; use Ada.Finalization;
with Ada.Text_IO;      use Ada.Text_IO;
with Ada.Unchecked_Deallocation;

procedure Nodes_Free_The_Next is
   type T is new Controlled with record
      N : Integer := 0;
   end record;

   overriding procedure Adjust (X : in out T);
   overriding procedure Finalize (X : in out T);

   procedure Adjust (X : in out T) is
   begin
      Put_Line ("A" & Integer'Image (X.N));
   end Adjust;

   procedure Finalize (X : in out T) is
   begin
      Put_Line ("F" & Integer'Image (X.N));
   end Finalize;
begin
   declare
      type Node;
      type Link is access Node;
      type Node is new Limited_Controlled with record
         N    : Integer := 0;
         Next : Link;
      end record;

      overriding procedure Finalize (X : in out Node);

      procedure Free is new Ada.Unchecked_Deallocation (Node, Link);

      procedure Finalize (X : in out Node) is
      begin
         Put_Line ("N" & Integer'Image (X.N));
         Free (X.Next);
      end Finalize;

      A, B : Link;
   begin
      for I in 1 .. 3 loop
         B := new Node;
         B.N := I;
         B.Next := A;
         A := B;
      end loop;
   end;
end Nodes_Free_The_Next;
