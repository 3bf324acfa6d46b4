--  The Initialize of an object raises: its block stays out, and Deallocate is not called (RM 7.6.1, 13.11.2).
with Ada.Finalization;        use Ada.Finalization;
with Ada.Text_IO;             use Ada.Text_IO;
with Ada.Unchecked_Deallocation;
with System;                  use System;
with System.Storage_Elements; use System.Storage_Elements;
with Block_Pools;             use Block_Pools;

procedure Uninitialized is
   type T is new Controlled with null record;

   overriding procedure Initialize (X : in out T);
   overriding procedure Finalize (X : in out T);

   type Pool is new Block_Pool with record
      Taken : Integer;
   end record;

   overriding procedure Allocate (X : in out Pool; A : out System.Address; S, L : in Storage_Count);
   overriding procedure Deallocate (X : in out Pool; A : in System.Address; S, L : in Storage_Count);

   Denied : exception;
   Fails  : Boolean := True;

   procedure Initialize (X : in out T) is
   begin
      if Fails then
         raise Denied;
      end if;
   end Initialize;

   procedure Finalize (X : in out T) is
   begin
      Put_Line ("F");
   end Finalize;

   procedure Allocate (X : in out Pool; A : out System.Address; S, L : in Storage_Count) is
   begin
      Allocate (Block_Pool (X), A, S, L);
      X.Taken := X.Taken + 1;
   end Allocate;

   procedure Deallocate (X : in out Pool; A : in System.Address; S, L : in Storage_Count) is
   begin
      Deallocate (Block_Pool (X), A, S, L);
      X.Taken := X.Taken - 1;
   end Deallocate;
begin
   declare
      P : Pool (8, 2);

      type Ref is access T with Storage_Pool => P;

      procedure Free is new Ada.Unchecked_Deallocation (T, Ref);

      A : Ref;
   begin
      begin
         A := new T;
      exception
         when Denied =>
            Put_Line ("denied" & Integer'Image (P.Taken));
      end;
      Fails := False;
      A := new T;
      Free (A);
      Put_Line (Integer'Image (P.Taken));
   end;
end Uninitialized;
