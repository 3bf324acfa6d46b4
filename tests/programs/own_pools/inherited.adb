--  A pool type inherits Allocate and Deallocate from the one that it extends (RM 3.9.2, 13.11).
with Ada.Finalization;        use Ada.Finalization;
with Ada.Text_IO;             use Ada.Text_IO;
with Ada.Unchecked_Deallocation;
with System;                  use System;
with System.Storage_Elements; use System.Storage_Elements;
with Block_Pools;             use Block_Pools;

procedure Inherited is
   type T is new Controlled with record
      N : Integer := 0;
   end record;

   overriding procedure Finalize (X : in out T);

   type Pool is new Block_Pool with record
      Taken : Integer;
   end record;

   overriding procedure Allocate (X : in out Pool; A : out System.Address; S, L : in Storage_Count);
   overriding procedure Deallocate (X : in out Pool; A : in System.Address; S, L : in Storage_Count);

   type Deep is new Pool with record
      Name : Integer;
   end record;

   procedure Finalize (X : in out T) is
   begin
      Put_Line ("F" & Integer'Image (X.N));
   end Finalize;

   procedure Allocate (X : in out Pool; A : out System.Address; S, L : in Storage_Count) is
   begin
      Allocate (Block_Pool (X), A, S, L);
      X.Taken := X.Taken + 1;
   end Allocate;

   procedure Deallocate (X : in out Pool; A : in System.Address; S, L : in Storage_Count) is
   begin
      Deallocate (Block_Pool (X), A, S, L);
      X.Taken := X.Taken - 1;
   end Deallocate;
begin
   declare
      P : Deep (16, 1);

      type Ref is access T with Storage_Pool => P;

      procedure Free is new Ada.Unchecked_Deallocation (T, Ref);

      A : Ref;
   begin
      P.Name := 9;
      A := new T;
      Put_Line (Integer'Image (P.Taken) & Integer'Image (P.Name));
      Free (A);
      Put_Line (Integer'Image (P.Taken) & Integer'Image (P.Name));
   end;
end Inherited;
