--  Allocate and Deallocate count the blocks that are out, and pass the request on to the library's: each allocator
--  calls the one, and each Free the other (RM 13.11). Which objects of the collection are finalized first is chosen
--  (RM 7.6.1).
with Ada.Finalization;        use Ada.Finalization;
with Ada.Text_IO;             use Ada.Text_IO;
with Ada.Unchecked_Deallocation;
with System;                  use System;
with System.Storage_Elements; use System.Storage_Elements;
with Block_Pools;             use Block_Pools;

procedure Counted is
   type T is new Controlled with record
      N : Integer := 0;
   end record;

   overriding procedure Finalize (X : in out T);

   type Pool is new Block_Pool with record
      Taken : Integer;
   end record;

   overriding procedure Allocate (X : in out Pool; A : out System.Address; S, L : in Storage_Count);
   overriding procedure Deallocate (X : in out Pool; A : in System.Address; S, L : in Storage_Count);

   procedure Finalize (X : in out T) is
   begin
      Put_Line ("F" & Integer'Image (X.N));
   end Finalize;

   procedure Allocate (X : in out Pool; A : out System.Address; S, L : in Storage_Count) is
   begin
      Allocate (Block_Pool (X), A, S, L);
      X.Taken := X.Taken + 1;
   end Allocate;

   procedure Deallocate (X : in out Pool; A : in System.Address; S, L : in Storage_Count) is
   begin
      Deallocate (Block_Pool (X), A, S, L);
      X.Taken := X.Taken - 1;
   end Deallocate;
begin
   declare
      P : Pool (16, 2);

      type Ref is access T with Storage_Pool => P;

      procedure Free is new Ada.Unchecked_Deallocation (T, Ref);

      A, B, C : Ref;
   begin
      A := new T;
      B := new T;
      begin
         C := new T;
      exception
         when Storage_Error =>
            Put_Line ("full" & Integer'Image (P.Taken));
      end;
      Free (A);
      Put_Line (Integer'Image (P.Taken));
      C := new T;
      C.N := 1;
      Put_Line (Integer'Image (P.Taken));
   end;
end Counted;
