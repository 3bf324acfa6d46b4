--  An Allocate gives the address of a block that it has given back (RM 13.11).
with Ada.Finalization;        use Ada.Finalization;
with Ada.Text_IO;             use Ada.Text_IO;
with System;                  use System;
with System.Storage_Elements; use System.Storage_Elements;
with Block_Pools;             use Block_Pools;

procedure Returned is
   type T is new Controlled with record
      N : Integer := 0;
   end record;

   overriding procedure Finalize (X : in out T);

   type Pool is new Block_Pool with null record;

   overriding procedure Allocate (X : in out Pool; A : out System.Address; S, L : in Storage_Count);

   procedure Finalize (X : in out T) is
   begin
      Put_Line ("F" & Integer'Image (X.N));
   end Finalize;

   procedure Allocate (X : in out Pool; A : out System.Address; S, L : in Storage_Count) is
   begin
      Allocate (Block_Pool (X), A, S, L);
      Deallocate (Block_Pool (X), A, S, L);
   end Allocate;
begin
   declare
      P : Pool (16, 2);

      type Ref is access T with Storage_Pool => P;

      A : Ref;
   begin
      A := new T;
      Put_Line ("made");
   exception
      when others =>
         Put_Line ("raised");
   end;
end Returned;
