--  Allocators whose pool has an Allocate of its own stand in expressions, over operands that wait (RM 4.8, 13.11).
with Ada.Finalization;        use Ada.Finalization;
with Ada.Text_IO;             use Ada.Text_IO;
with Ada.Unchecked_Deallocation;
with System;                  use System;
with System.Storage_Elements; use System.Storage_Elements;
with Block_Pools;             use Block_Pools;

procedure Operands is
   type T is new Controlled with record
      N : Integer := 0;
   end record;

   overriding procedure Finalize (X : in out T);

   type Pool is new Block_Pool with record
      Taken : Integer;
   end record;

   overriding procedure Allocate (X : in out Pool; A : out System.Address; S, L : in Storage_Count);
   overriding procedure Deallocate (X : in out Pool; A : in System.Address; S, L : in Storage_Count);

   function Id (N : Integer) return Integer is
   begin
      return N;
   end Id;

   procedure Finalize (X : in out T) is
   begin
      Put_Line ("F" & Integer'Image (X.N));
   end Finalize;

   procedure Allocate (X : in out Pool; A : out System.Address; S, L : in Storage_Count) is
   begin
      Allocate (Block_Pool (X), A, S, L);
      X.Taken := X.Taken + 1;
      Put_Line ("a" & Integer'Image (X.Taken));
   end Allocate;

   procedure Deallocate (X : in out Pool; A : in System.Address; S, L : in Storage_Count) is
   begin
      Deallocate (Block_Pool (X), A, S, L);
      X.Taken := X.Taken - 1;
      Put_Line ("d" & Integer'Image (X.Taken));
   end Deallocate;
begin
   declare
      P : Pool (16, 6);

      type Ref is access T with Storage_Pool => P;

      procedure Free is new Ada.Unchecked_Deallocation (T, Ref);

      A : Ref;

      function Val (M : Integer; R : Ref) return Integer is
      begin
         R.N := M;
         return M + R.N;
      end Val;
   begin
      A := new T;
      A.N := 3;
      Put_Line
        (Integer'Image (Id (2) * 10 + Val (Id (4), new T) - A.N) & Boolean'Image (A = new T)
         & Integer'Image (Val (1, new T) + Val (2, new T) * 2));
      Free (A);
      A := new T;
   end;
end Operands;
