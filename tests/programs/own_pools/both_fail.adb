--  A Finalize raises where its object is freed: Deallocate is called all the same, and Program_Error follows, unless
--  Deallocate raises too (RM 7.6.1, 13.11.2).
with Ada.Finalization;        use Ada.Finalization;
with Ada.Text_IO;             use Ada.Text_IO;
with Ada.Unchecked_Deallocation;
with System;                  use System;
with System.Storage_Elements; use System.Storage_Elements;
with Block_Pools;             use Block_Pools;

procedure Both_Fail is
   type T is new Controlled with record
      N : Integer := 0;
   end record;

   overriding procedure Finalize (X : in out T);

   type Pool is new Block_Pool with record
      Strict : Boolean;
   end record;

   overriding procedure Deallocate (X : in out Pool; A : in System.Address; S, L : in Storage_Count);

   Denied : exception;

   procedure Finalize (X : in out T) is
   begin
      Put_Line ("F");
      raise Constraint_Error;
   end Finalize;

   procedure Deallocate (X : in out Pool; A : in System.Address; S, L : in Storage_Count) is
   begin
      Deallocate (Block_Pool (X), A, S, L);
      if X.Strict then
         raise Denied;
      end if;
   end Deallocate;
begin
   declare
      P : Pool (16, 1);

      type Ref is access T with Storage_Pool => P;

      procedure Free is new Ada.Unchecked_Deallocation (T, Ref);

      A : Ref;
   begin
      for I in 1 .. 2 loop
         begin
            A := new T;
            Free (A);
         exception
            when Program_Error =>
               Put_Line ("PE " & Boolean'Image (A = null));
            when Denied =>
               Put_Line ("denied " & Boolean'Image (A = null));
         end;
         P.Strict := True;
      end loop;
   end;
end Both_Fail;
