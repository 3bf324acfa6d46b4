--  A Deallocate keeps one block for the next Allocate, and the Finalize of the pool gives it back to the library
--  (RM 7.6.1, 13.11).
with Ada.Finalization;        use Ada.Finalization;
with Ada.Text_IO;             use Ada.Text_IO;
with Ada.Unchecked_Deallocation;
with System;                  use System;
with System.Storage_Elements; use System.Storage_Elements;
with Block_Pools;             use Block_Pools;

procedure Cached is
   type T is new Controlled with record
      N : Integer := 0;
   end record;

   overriding procedure Finalize (X : in out T);

   type Pool is new Block_Pool with record
      Spare : System.Address;
      Has   : Boolean;
   end record;

   overriding procedure Allocate (X : in out Pool; A : out System.Address; S, L : in Storage_Count);
   overriding procedure Deallocate (X : in out Pool; A : in System.Address; S, L : in Storage_Count);
   overriding procedure Finalize (X : in out Pool);

   procedure Finalize (X : in out T) is
   begin
      Put_Line ("F" & Integer'Image (X.N));
   end Finalize;

   procedure Allocate (X : in out Pool; A : out System.Address; S, L : in Storage_Count) is
   begin
      if X.Has then
         A := X.Spare;
         X.Has := False;
      else
         Put_Line ("library");
         Allocate (Block_Pool (X), A, S, L);
      end if;
   end Allocate;

   procedure Deallocate (X : in out Pool; A : in System.Address; S, L : in Storage_Count) is
   begin
      if X.Has then
         Deallocate (Block_Pool (X), A, S, L);
      else
         X.Spare := A;
         X.Has := True;
      end if;
   end Deallocate;

   procedure Finalize (X : in out Pool) is
   begin
      Put_Line ("kept " & Boolean'Image (X.Has));
      if X.Has then
         Deallocate (Block_Pool (X), X.Spare, 16, 8);
      end if;
   end Finalize;
begin
   declare
      P : Pool (16, 1);

      type Ref is access T with Storage_Pool => P;

      procedure Free is new Ada.Unchecked_Deallocation (T, Ref);

      A : Ref;
   begin
      for I in 1 .. 2 loop
         A := new T;
         A.N := I;
         Free (A);
      end loop;
   end;
end Cached;
