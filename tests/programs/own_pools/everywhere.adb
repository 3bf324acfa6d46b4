--  Allocators whose pool has an Allocate of its own, wherever they stand: in a declaration, a return statement, an
--  assignment to a component, and an actual (RM 4.8, 13.11).
with Ada.Finalization;        use Ada.Finalization;
with Ada.Text_IO;             use Ada.Text_IO;
with System;                  use System;
with System.Storage_Elements; use System.Storage_Elements;
with Block_Pools;             use Block_Pools;

procedure Everywhere is
   type T is new Controlled with record
      N : Integer := 0;
   end record;

   overriding procedure Finalize (X : in out T);

   type Pool is new Block_Pool with null record;

   overriding procedure Allocate (X : in out Pool; A : out System.Address; S, L : in Storage_Count);

   procedure Finalize (X : in out T) is
   begin
      Put_Line ("F" & Integer'Image (X.N));
   end Finalize;

   procedure Allocate (X : in out Pool; A : out System.Address; S, L : in Storage_Count) is
   begin
      Allocate (Block_Pool (X), A, S, L);
   end Allocate;
begin
   declare
      P : Pool (16, 4);

      type Ref is access T with Storage_Pool => P;

      type Box is record
         Kept : Ref;
      end record;

      X : Box;
      A : Ref := new T;

      function Made return Ref is
      begin
         return new T;
      end Made;

      procedure Name (R : in Ref; M : in Integer) is
      begin
         R.N := M;
      end Name;

      B : Ref;
   begin
      Name (A, 1);
      B := Made;
      Name (B, 2);
      X.Kept := new T;
      X.Kept.N := 3;
      Name (new T, 4);
   end;
end Everywhere;
