--  A list ends with its collection, and each node frees the next one: Deallocate is called for those that are freed,
--  and for no other (RM 7.6.1, 13.11.2).
with Ada.Finalization;        use Ada.Finalization;
with Ada.Text_IO;             use Ada.Text_IO;
with Ada.Unchecked_Deallocation;
with System;                  use System;
with System.Storage_Elements; use System.Storage_Elements;
with Block_Pools;             use Block_Pools;

procedure Emptied is
   type Pool is new Block_Pool with null record;

   overriding procedure Deallocate (X : in out Pool; A : in System.Address; S, L : in Storage_Count);

   procedure Deallocate (X : in out Pool; A : in System.Address; S, L : in Storage_Count) is
   begin
      Deallocate (Block_Pool (X), A, S, L);
   end Deallocate;
begin
   declare
      P : Pool (24, 3);

      type Node;
      type Link is access Node with Storage_Pool => P;

      type Node is new Limited_Controlled with record
         M    : Integer := 0;
         Next : Link;
      end record;

      overriding procedure Finalize (X : in out Node);

      procedure Free is new Ada.Unchecked_Deallocation (Node, Link);

      procedure Finalize (X : in out Node) is
      begin
         Put_Line ("N" & Integer'Image (X.M));
         Free (X.Next);
      end Finalize;

      A, B : Link;
   begin
      for I in 1 .. 3 loop
         B := new Node;
         B.M := I;
         B.Next := A;
         A := B;
      end loop;
   end;
end Emptied;
