--  A list in a pool, whose objects free the next one, ends with its collection: members are freed in the end of their
--  collection (RM 7.6.1).
with Ada.Finalization; use Ada.Finalization;
with Ada.Text_IO;      use Ada.Text_IO;
with Ada.Unchecked_Deallocation;
with Block_Pools;      use Block_Pools;

procedure Emptied is
begin
   declare
      P : Block_Pool (24, 3);

      type Node;
      type Link is access Node with Storage_Pool => P;

      type Node is new Limited_Controlled with record
         N    : Integer := 0;
         Next : Link;
      end record;

      overriding procedure Finalize (X : in out Node);

      procedure Free is new Ada.Unchecked_Deallocation (Node, Link);

      procedure Finalize (X : in out Node) is
      begin
         Put_Line ("N" & Integer'Image (X.N));
         Free (X.Next);
      end Finalize;

      A, B : Link;
   begin
      for I in 1 .. 3 loop
         B := new Node;
         B.N := I;
         B.Next := A;
         A := B;
      end loop;
   end;
end Emptied;
